//! The header as a C program prints it: every number, macro and inline function, held against what it speaks of, so
//! that nothing is typed twice. Numbers of answers and events are those of the definitions; lengths, places and the
//! sign of a word that is left behind are those of the reference's tables and images; the parts of an answer are those
//! that the archive packs. A name that is held against nothing fails the test. Without YARVELOW_LIB there is no archive
//! and nothing is looked at.

#![cfg(archive)]

mod print;

use compare::generate::{any_order, bad_table, good_table, size};
use compare::{Archive, Engine, Random};
use print::{code, name, printed};
use reference::{bad, event_unchecked, image, length, write, Port, Table, Word, LONGEST, ROOM};
use std::collections::BTreeSet;
use yarvelow::{Event, Kind, Refusal};

/// The definitions of answers and events.
const DEFINITIONS: &str = include_str!("../../../../crates/model/specs/Event.antt");
/// The test in C, which calls every function of the header.
const CALLS: &str = include_str!("../../../yarvelow/tests/header.c");

/// The answers and events of the definitions, named as in the header, with their numbers. The lines are like these:
/// `number_of (BadTable f) = 1`, `number_of Idle = 7` and `call_off = 4`.
fn defined() -> Vec<(String, u64)> {
    let definition = |line: &str| {
        let (left, right) = line.split_once(" = ")?;
        let number = right.parse().ok()?;
        let case = left
            .trim_start_matches("number_of ")
            .trim_start_matches('(');
        let mut name = String::from("YARVELOW");
        for (i, c) in case.split(' ').next()?.chars().enumerate() {
            if i == 0 || c.is_uppercase() {
                name.push('_');
            }
            name.push(c.to_ascii_uppercase());
        }
        Some((name.replace("STEPPING", "STEP"), number))
    };
    let lines = DEFINITIONS.lines().filter(|line| !line.starts_with("--"));
    lines.filter_map(definition).collect()
}

/// Good tables of every size, and their images.
fn tables() -> Vec<(Table, Vec<u8>)> {
    let mut random = Random::new(3);
    let mut make = || {
        let d = size(&mut random);
        let t = good_table(&mut random, d);
        let mut room = [0; LONGEST];
        let (_, long) = write(&t, &mut room);
        assert_eq!(Archive.check(&room[..long]), 0);
        (t, room[..long].to_vec())
    };
    (0..2_000).map(|_| make()).collect()
}

/// The number in one or two bytes of an image.
fn one(image: &[u8], place: usize) -> u64 {
    image[place].into()
}

fn two(image: &[u8], place: usize) -> u64 {
    u16::from_le_bytes([image[place], image[place + 1]]).into()
}

/// The place of a field: how it is read there, and what the word or a port of the table has for it.
type Place<T> = (&'static str, fn(&[u8], usize) -> u64, fn(&T) -> u64);

const OF_THE_WORD: [Place<Word>; 3] = [
    ("YARVELOW_TAKEN", one, |w| w.taken.into()),
    ("YARVELOW_OWNER", one, |w| w.owner.into()),
    ("YARVELOW_SPIN", two, |w| w.spin.into()),
];

const OF_A_PORT: [Place<Port>; 4] = [
    ("YARVELOW_POINT", one, |p| p.point.into()),
    ("YARVELOW_STATUS", one, |p| p.status.into()),
    ("YARVELOW_MADE", two, |p| p.made.into()),
    ("YARVELOW_GO", two, |p| p.go.into()),
];

/// The functions that take an answer apart.
const PARTS: [&str; 7] = [
    "yarvelow_number_of",
    "yarvelow_length_of",
    "yarvelow_cached_of",
    "yarvelow_distributed_of",
    "yarvelow_kind_of",
    "yarvelow_port_of",
    "yarvelow_place_of",
];

/// An answer and what those functions are to give; none where it isn't theirs to say.
type Parts = (u64, [Option<u64>; 7]);

/// Answers of the archive with the parts that the reference has for them; those of events also with more above them.
fn answers(tables: &[(Table, Vec<u8>)]) -> Vec<Parts> {
    let mut all: Vec<Parts> = Vec::new();
    for d in 0..=ROOM as u64 + 1 {
        let (number, _) = reference::fresh(d);
        let long = if number == 0 { length(d as usize) } else { 0 };
        let answer = Archive.fresh(d, &mut [0; LONGEST]);
        let (number, long) = (Some(number), Some(long as u64));
        all.push((
            answer,
            [number, long, None, None, Some(0), Some(0), Some(0)],
        ));
    }
    let mut random = Random::new(4);
    for (t, image) in tables {
        let (port, event) = any_order(&mut random, t.d.into());
        let (number, cached, distributed) = event_unchecked(&mut t.clone(), port, event);
        let answer = Archive.event(&mut image.clone(), port, event);
        let (number, cached, distributed) = (Some(number), Some(cached), Some(distributed));
        for answer in [answer, answer | random.number() << 24] {
            all.push((
                answer,
                [number, None, cached, distributed, Some(0), Some(0), Some(0)],
            ));
        }
    }
    for _ in tables {
        let d = size(&mut random);
        let t = bad_table(&mut random, d);
        if let Some(fault) = bad(&t) {
            let answer = Archive.check(&image(&t));
            for answer in [answer, answer | random.number() << 40] {
                let of_others = [1, 0, 0, 0, fault.kind, fault.port, fault.place];
                all.push((answer, of_others.map(Some)));
            }
        }
    }
    all
}

/// The parts of the sign of a word that is left behind: taken, its owner at point 0, its spin not the owner's GO.
fn sign(t: &Table) -> [bool; 3] {
    let owner = t.ports[usize::from(t.word.owner)];
    let taken = t.word.taken == 1;
    [taken, owner.point == 0, t.word.spin != owner.go]
}

#[test]
fn every_name_is_held() {
    let tables = tables();
    let answers = answers(&tables);
    let packed: Vec<u64> = answers.iter().map(|parts| parts.0).collect();
    let images: Vec<Vec<u8>> = tables.iter().map(|(_, image)| image.clone()).collect();
    let mut all = printed("header", &packed, &images);
    let mut take = |name: &str| all.remove(name).unwrap_or_else(|| panic!("no {name}"));

    for (name, number) in defined() {
        assert_eq!(take(&name), [number], "{name}");
    }
    let lengths: Vec<u64> = (0..=ROOM).map(|d| length(d) as u64).collect();
    assert_eq!(take("YARVELOW_PORTS"), [ROOM as u64]);
    assert_eq!(take("YARVELOW_IMAGE"), lengths);
    assert_eq!(take("YARVELOW_IMAGE_MOST"), [LONGEST as u64]);

    for (name, read, value) in OF_THE_WORD {
        let place = take(name)[0] as usize;
        for (t, image) in &tables {
            assert_eq!(read(image, place), value(&t.word), "{name}");
        }
    }
    for (name, read, value) in OF_A_PORT {
        let places = take(name);
        for (t, image) in &tables {
            for (port, place) in t.ports[..t.d.into()].iter().zip(&places) {
                assert_eq!(read(image, *place as usize), value(port), "{name}");
            }
        }
    }

    for (i, name) in PARTS.into_iter().enumerate() {
        for (got, (answer, parts)) in take(name).into_iter().zip(&answers) {
            let want = parts[i].unwrap_or(got);
            assert_eq!(got, want, "{name} of {answer:#x}");
        }
    }

    let mut met = BTreeSet::new();
    for ((t, image), got) in tables.iter().zip(take("yarvelow_left_behind")) {
        let [taken, idle, other] = sign(t);
        let want = taken && (idle || other);
        assert_eq!(got, want.into(), "yarvelow_left_behind");
        assert_eq!(yarvelow::left_behind(image), want, "left_behind");
        met.insert([taken, idle, other]);
    }
    assert_eq!(met.len(), 8, "{met:?}");

    let names: Vec<_> = all.keys().collect();
    assert!(names.is_empty(), "held against nothing: {names:?}");
}

/// Every word of the header that begins as its names do is printed, or a function that the C test calls, or an enum's
/// own name.
#[test]
fn every_name_is_printed() {
    let all = printed("names", &[0], &[vec![]]);
    let code = code();
    let words = code.split(|c: char| c != '_' && !c.is_ascii_alphanumeric());
    let mut left: BTreeSet<&str> = words
        .filter(|word| word.to_ascii_lowercase().starts_with("yarvelow"))
        .filter(|word| !all.contains_key(*word))
        .collect();
    for line in code.lines() {
        if let Some(function) = line.strip_prefix("uint64_t ").map(name) {
            let called = CALLS.contains(&format!("{function}("));
            assert!(called, "header.c does not call {function}");
            left.remove(function);
        } else if let Some(tag) = line.strip_prefix("enum ").map(name) {
            left.remove(tag);
        }
    }
    // The guard against a second reading has no value.
    left.remove("YARVELOW_H");
    assert!(left.is_empty(), "not printed: {left:?}");
}

#[test]
fn the_crate_has_the_same_numbers_and_places() {
    let all = printed("crate", &[0], &[]);
    for refusal in Refusal::ALL {
        let name = format!("YARVELOW_{}", refusal.name().replace(' ', "_"));
        assert_eq!(all[&name], [refusal.number().into()], "{name}");
    }
    let numbers = [
        ("YARVELOW_ENTER", Event::Enter as usize),
        ("YARVELOW_STEP", Event::Step as usize),
        ("YARVELOW_CRASH", Event::Crash as usize),
        ("YARVELOW_CALL_OFF", Event::CallOff as usize),
        ("YARVELOW_LEAVE", Event::Leave as usize),
        ("YARVELOW_PORTS", yarvelow::PORTS),
        ("YARVELOW_IMAGE_MOST", yarvelow::LONGEST),
        ("YARVELOW_TAKEN", yarvelow::TAKEN_PLACE),
        ("YARVELOW_OWNER", yarvelow::OWNER_PLACE),
        ("YARVELOW_SPIN", yarvelow::SPIN_PLACE),
    ];
    for (name, number) in numbers {
        assert_eq!(all[name], [number as u64], "{name}");
    }
    let places: [(_, fn(usize) -> usize); 5] = [
        ("YARVELOW_IMAGE", yarvelow::image_length),
        ("YARVELOW_POINT", yarvelow::point_place),
        ("YARVELOW_STATUS", yarvelow::status_place),
        ("YARVELOW_MADE", yarvelow::made_place),
        ("YARVELOW_GO", yarvelow::go_place),
    ];
    for (name, place) in places {
        let want: Vec<u64> = (0..=ROOM).map(|k| place(k) as u64).collect();
        assert_eq!(all[name], want, "{name}");
    }
}

#[test]
fn the_crate_has_the_same_parts_of_what_is_bad() {
    let answers = answers(&tables());
    let packed: Vec<u64> = answers.iter().map(|parts| parts.0).collect();
    let all = printed("parts", &packed, &[]);
    let mut met = BTreeSet::new();
    for (i, answer) in packed.into_iter().enumerate() {
        let part = |name: &str| all[name][i];
        if let Some(Refusal::BadTable { kind, port, place }) = Refusal::of(answer) {
            assert_eq!(u64::from(kind.number()), part("yarvelow_kind_of"));
            assert_eq!(u64::from(port), part("yarvelow_port_of"));
            assert_eq!(u64::from(place), part("yarvelow_place_of"));
            met.insert(kind.number());
        }
    }
    let kinds = Kind::ALL.map(Kind::number);
    assert!(met.into_iter().eq(kinds[1..].iter().copied()));
}
