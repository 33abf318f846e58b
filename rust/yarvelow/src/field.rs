//! The fields of an image, in its order, and what is demanded of each: the one table of their names.

use crate::PORTS;

/// What a field belongs to; the number is the digit after the point of 1.0 to 1.4.
#[derive(Clone, Copy, Debug, PartialEq, Eq, Hash)]
#[repr(u8)]
pub enum Kind {
    /// The table as a whole: D out of range, or room above D that isn't 0. No image has it.
    Whole = 0,
    /// What all share: ACTIVE and the lock word.
    Shared = 1,
    /// A port: what it keeps over a crash.
    Port = 2,
    /// A working value of a port.
    Working = 3,
    /// A set of ports with a current copy.
    Copies = 4,
}

impl Kind {
    /// All of them, in the order of their numbers.
    pub const ALL: [Kind; 5] = [
        Kind::Whole,
        Kind::Shared,
        Kind::Port,
        Kind::Working,
        Kind::Copies,
    ];

    /// The digit after the point.
    pub const fn number(self) -> u8 {
        self as u8
    }
}

/// The length of the head, which comes before all fields.
const HEAD: usize = 14;

/// A name, how many bytes the field takes (0 for a copy set), and what it must be or have.
type Row = (&'static str, usize, &'static str);

const SHARED: [Row; 4] = [
    ("ACTIVE", 8, "have no bit at D or above"),
    ("taken", 1, "be 0 or 1"),
    ("owner", 1, "be below D"),
    ("spin", 2, "be at most made of the owner"),
];

const PORT: [Row; 6] = [
    (
        "point",
        1,
        "be one that is named, not 6 with the port's bit in ACTIVE set, not 15 with it clear",
    ),
    ("STATUS", 1, "be 0 to 3"),
    ("flag", 1, "be 0 or 1, and 0 at point 0"),
    ("latest value", 1, "be 0 or 1"),
    (
        "made",
        2,
        "be at least each spin of this port that the word or an earlier port has, and not 0 with latest value 1",
    ),
    ("GO", 2, "be at most made"),
];

const WORKING: [Row; 5] = [
    ("own spin", 2, "be at most made, and 0 outside its points"),
    ("seen owner", 1, "be below D, and 0 outside its points"),
    (
        "seen spin",
        2,
        "be at most made of the seen owner, above 0 at 25, 35 and 45, and 0 outside its points",
    ),
    ("candidate", 1, "be below D, and 0 outside its points"),
    (
        "candidate spin",
        2,
        "be at most made of the candidate, and 0 outside its points",
    ),
];

const OF_ALL: [Row; 2] = [
    ("copy set of ACTIVE", 0, "have no bit at D or above"),
    ("copy set of the word", 0, "have no bit at D or above"),
];

const OF_A_PORT: [Row; 3] = [
    ("copy set of STATUS", 0, "have no bit at D or above"),
    ("copy set of GO", 0, "have no bit at D or above"),
    (
        "copy set of the latest spin",
        0,
        "have no bit at D or above, and none where made is 0",
    ),
];

/// A field of an image.
#[derive(Clone, Copy, Debug, PartialEq, Eq)]
pub struct Field {
    /// What it belongs to.
    pub kind: Kind,
    /// The port that it belongs to; none where all share it.
    pub port: Option<u8>,
    /// Its name.
    pub name: &'static str,
    /// What a good table's field does: "be 0 or 1".
    pub must: &'static str,
    /// The byte where it begins.
    pub place: usize,
    /// How many bytes it takes.
    pub width: usize,
}

/// The fields of an image of `d` ports after its head, in their order.
///
/// ```
/// use yarvelow::{fields, Kind};
///
/// let all: Vec<_> = fields(2).collect();
/// assert_eq!((all[0].name, all[0].place, all[0].width), ("ACTIVE", 14, 8));
/// assert_eq!((all[9].kind, all[9].port, all[9].name, all[9].place), (Kind::Port, Some(0), "GO", 32));
/// let last = all[all.len() - 1];
/// assert_eq!((last.port, last.name, last.place + last.width), (Some(1), "copy set of the latest spin", 74));
/// ```
pub fn fields(d: usize) -> impl Iterator<Item = Field> {
    let ports = move || (0..d as u8).map(Some);
    let shared = rows(Kind::Shared, None, &SHARED);
    let records = ports().flat_map(|k| {
        let kept = rows(Kind::Port, k, &PORT);
        kept.chain(rows(Kind::Working, k, &WORKING))
    });
    let of_all = rows(Kind::Copies, None, &OF_ALL);
    let copies = of_all.chain(ports().flat_map(|k| rows(Kind::Copies, k, &OF_A_PORT)));
    let all = shared.chain(records).chain(copies);
    all.scan(HEAD, move |next, (kind, port, (name, width, must))| {
        let place = *next;
        let width = match width {
            0 if d <= 16 => 2,
            0 => 8,
            _ => width,
        };
        *next += width;
        Some(Field {
            kind,
            port,
            name,
            must,
            place,
            width,
        })
    })
}

/// The rows of one kind, with the port that they belong to.
fn rows(
    kind: Kind,
    port: Option<u8>,
    rows: &'static [Row],
) -> impl Iterator<Item = (Kind, Option<u8>, Row)> {
    rows.iter().map(move |row| (kind, port, *row))
}

impl Field {
    /// The number in the bytes of the field, the low one first. Panics where the image does not reach so far.
    pub fn value(&self, image: &[u8]) -> u64 {
        let bytes = &image[self.place..self.place + self.width];
        bytes
            .iter()
            .rev()
            .fold(0, |n, byte| n << 8 | u64::from(*byte))
    }

    /// What is to be said of a field with a value that is bad.
    pub fn told(&self, value: &str) -> String {
        let Field {
            name, place, must, ..
        } = self;
        let whose = whose(self.port);
        format!("{whose}{name} at byte {place} is {value}; it must {must}")
    }
}

/// The port that a field belongs to, to be put before its name.
fn whose(port: Option<u8>) -> String {
    port.map_or(String::new(), |k| format!("port {k}: "))
}

/// What is to be said of a bad field by its kind, port and place. Above 16 ports these leave two names to some copy sets.
pub(crate) fn told(kind: Kind, port: u8, place: u16) -> String {
    if kind == Kind::Whole {
        return String::from("D is not 1 to 64, or room above D is not 0");
    }
    let mut possible: Vec<Field> = Vec::new();
    for d in 1..=PORTS {
        let there = |field: &Field| field.place == usize::from(place) && field.kind == kind;
        let field = fields(d).find(there);
        let right = field.filter(|field| usize::from(field.port.unwrap_or(d as u8)) == port.into());
        possible
            .extend(right.filter(|field| possible.iter().all(|other| other.name != field.name)));
    }
    if let [field] = possible[..] {
        return field.told("bad");
    }
    let names: Vec<&str> = possible.iter().map(|field| field.name).collect();
    let whose = whose(possible.first().and_then(|field| field.port));
    format!("{whose}{} at byte {place} is bad", names.join(" or "))
}
