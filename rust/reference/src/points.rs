//! The points: which there are, where each working value has its place, and which word a point touches and how.

/// A word that a step can touch, as the stepping port sees it.
#[derive(Clone, Copy, Debug, PartialEq, Eq)]
pub enum Object {
    /// ACTIVE.
    Active,
    /// The lock word.
    Word,
    /// The port's own STATUS.
    Status,
    /// The port's own GO.
    Go,
    /// The port's own spin with the number of its own spin value.
    OwnSpin,
    /// GO of the candidate.
    CandidateGo,
    /// The seen owner's spin with the number of the seen spin.
    SeenSpin,
}

/// How a word is touched.
#[derive(Clone, Copy, Debug, PartialEq, Eq)]
pub enum Kind {
    /// A read.
    Read,
    /// A write.
    Write,
    /// A fetch-and-add.
    Add,
    /// A compare and swap, failed or not.
    Swap,
}

/// Whether there is such a point.
pub fn named(point: u8) -> bool {
    matches!(point, 0..=6 | 8..=19 | 20..=25 | 30..=35 | 40..=45)
}

/// The units of a point of the promotion, 0 to 5; none outside it.
pub fn promotion(point: u8) -> Option<u8> {
    matches!(point, 20..=25 | 30..=35 | 40..=45).then_some(point % 10)
}

/// Where the promotion of a point goes back to.
pub fn back(point: u8) -> u8 {
    match point / 10 {
        2 => 8,
        3 => 17,
        _ => 18,
    }
}

/// Whether own spin has a place at a point.
pub fn own_spin_has(point: u8) -> bool {
    matches!(point, 5 | 6 | 8 | 9 | 10 | 17 | 20..=25 | 30..=35)
}

/// Whether seen owner and seen spin have a place at a point.
pub fn seen_has(point: u8) -> bool {
    matches!(promotion(point), Some(1 | 2 | 3 | 5))
}

/// Whether candidate has a place at a point.
pub fn candidate_has(point: u8) -> bool {
    matches!(promotion(point), Some(2 | 3))
}

/// Whether candidate spin has a place at a point.
pub fn candidate_spin_has(point: u8) -> bool {
    promotion(point) == Some(3)
}

/// The word that a step at a point touches, and how. Points 2 and 9 touch none; there is no step at 0 and 11.
// Each step asks once, of a table or of an image: the hint keeps it from being a call.
#[inline]
pub fn touch(point: u8) -> Option<(Object, Kind)> {
    match point {
        1 => Some((Object::Status, Kind::Read)),
        3 | 16 => Some((Object::Go, Kind::Read)),
        4 | 18 => Some((Object::Go, Kind::Write)),
        5 | 14 => Some((Object::Active, Kind::Read)),
        6 | 15 => Some((Object::Active, Kind::Add)),
        8 => Some((Object::OwnSpin, Kind::Read)),
        10 | 12 | 13 | 19 => Some((Object::Status, Kind::Write)),
        17 => Some((Object::Word, Kind::Swap)),
        _ => match promotion(point) {
            Some(0 | 4) => Some((Object::Word, Kind::Read)),
            Some(1) => Some((Object::Active, Kind::Read)),
            Some(2) => Some((Object::CandidateGo, Kind::Read)),
            Some(3) => Some((Object::Word, Kind::Swap)),
            Some(5) => Some((Object::SeenSpin, Kind::Write)),
            _ => None,
        },
    }
}
