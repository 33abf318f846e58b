//! Where everything stands in an image.

use crate::table::ROOM;
use crate::words::Cell;

/// The most ports of version 1. Its copy sets take two bytes, those of version 2 take eight.
const NARROW: usize = 16;
/// Version, D, and three entries of four bytes.
const HEAD: usize = 14;
/// ACTIVE and the word.
const SHARED: usize = 12;
/// A port's record.
pub(crate) const PORT: usize = 16;

/// Where the fields of a port stand in its record.
pub(crate) mod record {
    pub(crate) const POINT: usize = 0;
    pub(crate) const STATUS: usize = 1;
    pub(crate) const FLAG: usize = 2;
    pub(crate) const VALUE: usize = 3;
    pub(crate) const MADE: usize = 4;
    pub(crate) const GO: usize = 6;
    pub(crate) const OWN_SPIN: usize = 8;
    pub(crate) const SEEN_OWNER: usize = 10;
    pub(crate) const SEEN_SPIN: usize = 11;
    pub(crate) const CANDIDATE: usize = 13;
    pub(crate) const CANDIDATE_SPIN: usize = 14;
}

/// The byte of the version.
pub(crate) const VERSION_PLACE: usize = 0;
/// The byte of D.
pub(crate) const D_PLACE: usize = 1;
/// The first entry of the contents.
pub(crate) const CONTENTS_PLACE: usize = 2;
/// Eight bytes of ACTIVE.
pub(crate) const ACTIVE_PLACE: usize = HEAD;
/// The byte of the word's taken.
pub(crate) const TAKEN_PLACE: usize = HEAD + 8;
/// The byte of its owner.
pub(crate) const OWNER_PLACE: usize = HEAD + 9;
/// Two bytes of its spin.
pub(crate) const SPIN_PLACE: usize = HEAD + 10;

/// The length of the longest image.
pub const LONGEST: usize = length(ROOM);

/// The version of the image of a table of `d` ports.
pub(crate) const fn version(d: usize) -> u8 {
    if narrow(d) {
        1
    } else {
        2
    }
}

/// Whether a copy set takes two bytes.
pub(crate) const fn narrow(d: usize) -> bool {
    d <= NARROW
}

/// Where the record of port `k` stands.
pub(crate) const fn port_place(k: usize) -> usize {
    HEAD + SHARED + k * PORT
}

/// Where the copy set of a word stands. First are those of ACTIVE and the word, and then three for each port.
pub(crate) const fn set_place(d: usize, cell: Cell) -> usize {
    let number = match cell {
        Cell::Active => 0,
        Cell::Word => 1,
        Cell::Status(k) => 2 + 3 * k,
        Cell::Go(k) => 3 + 3 * k,
        Cell::Spin(k) => 4 + 3 * k,
    };
    let width = if narrow(d) { 2 } else { 8 };
    port_place(d) + number * width
}

/// The length of the image of a table of `d` ports: where the sets of one more port would stand.
pub const fn length(d: usize) -> usize {
    set_place(d, Cell::Status(d))
}

/// Start and length of the three bodies: shared, ports, copies.
pub(crate) fn contents(d: usize) -> [(usize, usize); 3] {
    let (ports, copies) = (port_place(0), port_place(d));
    [
        (HEAD, SHARED),
        (ports, copies - ports),
        (copies, length(d) - copies),
    ]
}
