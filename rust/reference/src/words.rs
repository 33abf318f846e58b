//! The words of one lock, wherever they are kept: a table has them in its fields, an image in its bytes.

use crate::table::{Port, Word};

/// A word of memory that ports have copies of.
#[derive(Clone, Copy, Debug, PartialEq, Eq)]
pub(crate) enum Cell {
    /// ACTIVE.
    Active,
    /// The lock word.
    Word,
    /// STATUS of a port.
    Status(usize),
    /// GO of a port.
    Go(usize),
    /// The latest spin of a port.
    Spin(usize),
}

/// The words of a lock, to be read.
pub(crate) trait Words {
    /// D, the number of ports.
    fn d(&self) -> usize;
    /// ACTIVE.
    fn active(&self) -> u64;
    /// The lock word.
    fn word(&self) -> Word;
    /// Port `k`.
    fn port(&self, k: usize) -> Port;
    /// The ports with a current copy of a word.
    fn copies(&self, cell: Cell) -> u64;
}

/// The words of a lock, to be read and written.
pub(crate) trait WordsMut: Words {
    /// Puts ACTIVE.
    fn set_active(&mut self, active: u64);
    /// Puts the lock word.
    fn set_word(&mut self, word: Word);
    /// Puts port `k`.
    fn set_port(&mut self, k: usize, port: Port);
    /// Changes the copy set of a word; gives what it was.
    fn renew(&mut self, cell: Cell, change: impl FnOnce(u64) -> u64) -> u64;

    /// Takes over every word of another lock with as many ports.
    fn set_all(&mut self, from: &impl Words) {
        self.set_active(from.active());
        self.set_word(from.word());
        for k in 0..from.d() {
            self.set_port(k, from.port(k));
        }
        for cell in [Cell::Active, Cell::Word] {
            self.renew(cell, |_| from.copies(cell));
        }
        for k in 0..from.d() {
            for cell in [Cell::Status(k), Cell::Go(k), Cell::Spin(k)] {
                self.renew(cell, |_| from.copies(cell));
            }
        }
    }
}
