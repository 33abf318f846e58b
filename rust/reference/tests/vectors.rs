//! The vectors of images and events that the program `vectors` runs too, and the schedules and examples, made by an independent implementation of document 01.

use reference::{event, image, in_place, listing::listing, packed, read, table};
use std::fs;
use std::path::PathBuf;

fn tests() -> PathBuf {
    PathBuf::from(concat!(env!("CARGO_MANIFEST_DIR"), "/../../tests"))
}

fn data() -> PathBuf {
    tests().join("../crates/vectors/data")
}

/// The bytes of a hexadecimal field; `-` is no bytes.
fn bytes(field: &str) -> Vec<u8> {
    if field == "-" {
        return Vec::new();
    }
    (0..field.len())
        .step_by(2)
        .map(|at| u8::from_str_radix(&field[at..at + 2], 16).unwrap())
        .collect()
}

/// The last image of a line; `=` is the first one again.
fn last(field: &str, first: &[u8]) -> Vec<u8> {
    if field == "=" {
        first.to_vec()
    } else {
        bytes(field)
    }
}

/// Whether an answer is the one that a vector has: its number, and from R-2 on also kind, port and place.
fn is(answer: u64, fields: &[&str]) -> bool {
    let parts = [
        answer & 255,
        answer >> 8 & 255,
        answer >> 16 & 255,
        answer >> 24,
    ];
    let wanted = fields.iter().map(|field| field.parse().unwrap());
    parts
        .into_iter()
        .take(fields.len())
        .eq::<Vec<u64>>(wanted.collect())
}

#[test]
fn events() {
    let text = fs::read_to_string(data().join("events.txt")).unwrap();
    let mut count = 0;
    for line in text.lines() {
        let fields: Vec<&str> = line.split(' ').collect();
        let [before, port, order, ref answer @ .., cached, distributed, after] = fields[..] else {
            panic!("{line}");
        };
        let before = bytes(before);
        let after = last(after, &before);
        // From R-2 on a table may be bad: the image has its fields.
        let mut table = table(&before).unwrap();
        let (port, order) = (port.parse().unwrap(), order.parse().unwrap());
        let got = event(&mut table, port, order);
        assert!(is(got.0, answer), "{line}");
        let shown = (got.1.to_string(), got.2.to_string());
        assert_eq!((&*shown.0, &*shown.1), (cached, distributed), "{line}");
        assert_eq!(image(&table), after, "{line}");
        let mut held = before;
        let packed_in_place = in_place::event(&mut held, port, order);
        assert_eq!(packed_in_place, packed(got), "{line}");
        assert_eq!(held, after, "{line}");
        count += 1;
    }
    assert!(count > 300, "only {count} vectors");
}

#[test]
fn images() {
    let text = fs::read_to_string(data().join("images.txt")).unwrap();
    let mut count = 0;
    for line in text.lines() {
        let fields: Vec<&str> = line.split(' ').collect();
        let [before, ref answer @ .., after] = fields[..] else {
            panic!("{line}");
        };
        let before = bytes(before);
        let (got, table) = read(&before);
        assert!(is(got, answer), "{line}");
        assert_eq!(image(&table), last(after, &before), "{line}");
        assert_eq!(in_place::check(&before), got, "{line}");
        count += 1;
    }
    assert!(count > 200, "only {count} vectors");
}

#[test]
fn schedules() {
    let mut count = 0;
    for entry in fs::read_dir(tests().join("schedules")).unwrap() {
        let input = entry.unwrap().path();
        if input.extension().is_some_and(|end| end == "in") {
            let want = fs::read(input.with_extension("out")).unwrap();
            let got = listing(&fs::read(&input).unwrap());
            assert_eq!(got, want, "{}", input.display());
            count += 1;
        }
    }
    assert!(count >= 90, "only {count} schedules");
}

#[test]
fn examples() {
    let mut count = 0;
    for entry in fs::read_dir(tests().join("examples")).unwrap() {
        let want = entry.unwrap().path();
        let input = tests().join("../examples").join(want.file_stem().unwrap());
        assert_eq!(
            listing(&fs::read(&input).unwrap()),
            fs::read(&want).unwrap(),
            "{}",
            input.display()
        );
        count += 1;
    }
    assert_eq!(count, 5);
}
