//! Document 01 with requests in plain Rust: the table of one lock, its events and costs, images and listings.
//!
//! It is written from the documents alone, so that the proved engine can be compared with it. Nothing here is proved.

#![deny(missing_docs)]

pub mod boundary;
mod costs;
mod events;
mod fault;
mod good;
mod held;
mod image;
pub mod in_place;
mod layout;
pub mod listing;
pub mod points;
mod rules;
mod steps;
mod table;
mod words;

pub use events::{event, event_unchecked, fresh, packed};
pub use fault::Fault;
pub use good::good;
pub use image::{image, read, table, write};
pub use layout::{length, LONGEST};
pub use rules::{bad, rules, Rule};
pub use steps::next;
pub use table::{Copies, Port, Table, Word, ROOM};

/// STATUS codes.
pub mod status {
    /// Wants in, or is idle.
    pub const TRY: u8 = 0;
    /// The critical status.
    pub const CS: u8 = 1;
    /// Has left.
    pub const EXIT: u8 = 2;
    /// Was called off and leaves.
    pub const ABORT: u8 = 3;
}

/// Event numbers.
pub mod order {
    /// E, enter.
    pub const ENTER: u64 = 1;
    /// S, step.
    pub const STEP: u64 = 2;
    /// X, crash.
    pub const CRASH: u64 = 3;
    /// A, call off.
    pub const CALL_OFF: u64 = 4;
    /// L, leave.
    pub const LEAVE: u64 = 5;
}

/// Refusal numbers. An answer of `BAD_TABLE` also has what is bad, as [`Fault::answer`] puts it.
pub mod number {
    /// Carried out.
    pub const DONE: u64 = 0;
    /// A table that isn't good.
    pub const BAD_TABLE: u64 = 1;
    /// Port at or above D.
    pub const NO_SUCH_PORT: u64 = 2;
    /// Event not 1 to 5.
    pub const NO_SUCH_EVENT: u64 = 3;
    /// E, point not 0.
    pub const BUSY: u64 = 4;
    /// E at point 0, or S at 4, made at its greatest.
    pub const WORN: u64 = 5;
    /// L, point not 11.
    pub const NOT_INSIDE: u64 = 6;
    /// S, X or A at point 0.
    pub const IDLE: u64 = 7;
    /// S at point 11.
    pub const INSIDE: u64 = 8;
    /// A fresh table with D out of range.
    pub const BAD_SIZE: u64 = 9;
    /// Image room too short.
    pub const SHORT_ROOM: u64 = 10;
    /// Length, version, D or contents of an image wrong.
    pub const BAD_IMAGE: u64 = 11;
}
