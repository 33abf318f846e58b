//! The table of one lock.

use crate::words::{Cell, Words, WordsMut};

/// The most ports that a table has room for.
pub const ROOM: usize = 64;

/// The lock word. Its spin belongs to its owner.
#[derive(Clone, Copy, Debug, Default, PartialEq, Eq)]
pub struct Word {
    /// 0 or 1.
    pub taken: u8,
    /// The port that has it, or had it last.
    pub owner: u8,
    /// A spin number of the owner, 0 for none.
    pub spin: u16,
}

/// What the table keeps for a port.
#[derive(Clone, Copy, Debug, Default, PartialEq, Eq)]
pub struct Port {
    /// Where the port stands.
    pub point: u8,
    /// One of the codes in [`crate::status`].
    pub status: u8,
    /// The call-off flag.
    pub flag: u8,
    /// The value of the latest spin.
    pub value: u8,
    /// The count of spins made.
    pub made: u16,
    /// A spin number, 0 for none.
    pub go: u16,
    /// Working value: own spin.
    pub own_spin: u16,
    /// Working value: seen owner.
    pub seen_owner: u8,
    /// Working value: seen spin, one of the seen owner's.
    pub seen_spin: u16,
    /// Working value: candidate.
    pub candidate: u8,
    /// Working value: candidate spin, one of the candidate's.
    pub candidate_spin: u16,
}

impl Port {
    /// Whether `spin` is the port's latest, the only one with a stored value.
    pub(crate) fn latest(&self, spin: u16) -> bool {
        spin != 0 && spin == self.made
    }
}

/// The sets of ports with a current copy of a port's words, bit k for port k.
#[derive(Clone, Copy, Debug, Default, PartialEq, Eq)]
pub struct Copies {
    /// Of its STATUS.
    pub status: u64,
    /// Of its GO.
    pub go: u64,
    /// Of its latest spin.
    pub spin: u64,
}

/// The table of one lock with D ports. Ports at or above D are room that is kept, all 0.
#[derive(Clone, Copy, Debug, PartialEq, Eq)]
pub struct Table {
    /// D, the number of ports.
    pub d: u8,
    /// ACTIVE: bit k belongs to port k.
    pub active: u64,
    /// The lock word.
    pub word: Word,
    /// The ports.
    pub ports: [Port; ROOM],
    /// The ports with a current copy of ACTIVE.
    pub active_copies: u64,
    /// The ports with a current copy of the lock word.
    pub word_copies: u64,
    /// The ports with a current copy of each port's words.
    pub copies: [Copies; ROOM],
}

impl Table {
    /// The first table of `d` ports. `d` is taken as it is.
    pub fn first(d: u8) -> Table {
        Table {
            d,
            active: 0,
            word: Word::default(),
            ports: [Port::default(); ROOM],
            active_copies: 0,
            word_copies: 0,
            copies: [Copies::default(); ROOM],
        }
    }

    /// The copy set of a word.
    fn set_of(&mut self, cell: Cell) -> &mut u64 {
        match cell {
            Cell::Active => &mut self.active_copies,
            Cell::Word => &mut self.word_copies,
            Cell::Status(k) => &mut self.copies[k].status,
            Cell::Go(k) => &mut self.copies[k].go,
            Cell::Spin(k) => &mut self.copies[k].spin,
        }
    }
}

impl Words for Table {
    fn d(&self) -> usize {
        self.d as usize
    }

    fn active(&self) -> u64 {
        self.active
    }

    fn word(&self) -> Word {
        self.word
    }

    fn port(&self, k: usize) -> Port {
        self.ports[k]
    }

    fn copies(&self, cell: Cell) -> u64 {
        match cell {
            Cell::Active => self.active_copies,
            Cell::Word => self.word_copies,
            Cell::Status(k) => self.copies[k].status,
            Cell::Go(k) => self.copies[k].go,
            Cell::Spin(k) => self.copies[k].spin,
        }
    }
}

impl WordsMut for Table {
    fn set_active(&mut self, active: u64) {
        self.active = active;
    }

    fn set_word(&mut self, word: Word) {
        self.word = word;
    }

    fn set_port(&mut self, k: usize, port: Port) {
        self.ports[k] = port;
    }

    fn renew(&mut self, cell: Cell, change: impl FnOnce(u64) -> u64) -> u64 {
        let copies = self.set_of(cell);
        let before = *copies;
        *copies = change(before);
        before
    }
}
