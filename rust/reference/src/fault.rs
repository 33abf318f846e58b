//! What is bad in a table: kind, port, and the byte of the image where the field begins (request R-2).

use crate::layout::{port_place, set_place};
use crate::number::BAD_TABLE;
use crate::words::Cell;

/// What is bad: 1.0 to 1.4 by its kind.
#[derive(Clone, Copy, Debug, PartialEq, Eq)]
pub struct Fault {
    /// 0 the table as a whole, 1 a shared field, 2 a port's field, 3 a working value, 4 a copy set.
    pub kind: u64,
    /// The port whose field it is; D for what all share.
    pub port: u64,
    /// The byte where the field begins in the image that a write of the table would give.
    pub place: u64,
}

impl Fault {
    /// D out of range, or room above D that isn't 0.
    pub const WHOLE: Fault = Fault {
        kind: 0,
        port: 0,
        place: 0,
    };

    /// The answer: number in bits 0 to 7, kind in 8 to 15, port in 16 to 23, place from 24 on.
    pub fn answer(self) -> u64 {
        BAD_TABLE | self.kind << 8 | self.port << 16 | self.place << 24
    }
}

/// A field that a rule can be charged to.
#[derive(Clone, Copy)]
pub(crate) enum Field {
    /// What all share, with its place.
    Shared(usize),
    /// A field of a port, with its place in the record.
    Port(usize, usize),
    /// A working value of a port, with its place in the record.
    Work(usize, usize),
    /// A copy set.
    Copies(Cell),
}

impl Field {
    /// What is bad where a rule that is charged to this field fails, in a table of `d` ports.
    pub(crate) fn fault(self, d: usize) -> Fault {
        let (kind, port, place) = match self {
            Field::Shared(place) => (1, d, place),
            Field::Port(k, at) => (2, k, port_place(k) + at),
            Field::Work(k, at) => (3, k, port_place(k) + at),
            Field::Copies(cell) => match cell {
                Cell::Active | Cell::Word => (4, d, set_place(d, cell)),
                Cell::Status(k) | Cell::Go(k) | Cell::Spin(k) => (4, k, set_place(d, cell)),
            },
        };
        Fault {
            kind,
            port: port as u64,
            place: place as u64,
        }
    }
}
