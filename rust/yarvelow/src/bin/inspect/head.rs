//! The head of an image: version, D, and start and length of each body.

use yarvelow::{image_length, point_place, PORTS};

/// The length of a head.
const LENGTH: usize = 14;

/// The bodies, in their order.
const BODIES: [&str; 3] = ["shared", "ports", "copies"];

/// A number of the head: its name, its place, and what it is to be where D is `d`.
type Number = (String, usize, usize);

/// The numbers of two bytes that follow version and D.
fn numbers(d: usize) -> Vec<Number> {
    let starts = [LENGTH, point_place(0), point_place(d), image_length(d)];
    let mut all = Vec::new();
    for (i, body) in BODIES.into_iter().enumerate() {
        let (place, long) = (2 + 4 * i, starts[i + 1] - starts[i]);
        all.push((format!("start of {body}"), place, starts[i]));
        all.push((format!("length of {body}"), place + 2, long));
    }
    all
}

/// The number in two bytes.
fn two(image: &[u8], place: usize) -> usize {
    usize::from(u16::from_le_bytes([image[place], image[place + 1]]))
}

/// The head of an image in one line.
pub fn shown(image: &[u8]) -> String {
    let bodies = BODIES.into_iter().enumerate().map(|(i, body)| {
        let (start, long) = (two(image, 2 + 4 * i), two(image, 4 + 4 * i));
        format!("  {body} {start}+{long}")
    });
    let (version, d) = (image[0], image[1]);
    format!("version {version}  D {d}{}", bodies.collect::<String>())
}

/// What is wrong with bytes that are no image, as far as their head shows: a line each. Where D is wrong no more can be told.
pub fn wrong(image: &[u8]) -> Vec<String> {
    let long = image.len();
    if long < LENGTH {
        return vec![format!(
            "there are {long} bytes; the head alone has {LENGTH}"
        )];
    }
    let d = usize::from(image[1]);
    if !(1..=PORTS).contains(&d) {
        return vec![format!("D at byte 1 is {d}; it must be 1 to {PORTS}")];
    }
    let mut lines = Vec::new();
    let mut must = |name: &str, got: usize, want: usize| {
        if got != want {
            lines.push(format!("{name} is {got}; with D = {d} it must be {want}"));
        }
    };
    must(
        "version at byte 0",
        image[0].into(),
        if d <= 16 { 1 } else { 2 },
    );
    for (name, place, want) in numbers(d) {
        must(&format!("{name} at byte {place}"), two(image, place), want);
    }
    must("the length of all", long, image_length(d));
    lines
}
