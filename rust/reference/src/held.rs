//! The words of a lock in the bytes of its image.

use crate::layout::record::*;
use crate::layout::{
    narrow, port_place, set_place, ACTIVE_PLACE, OWNER_PLACE, PORT, SPIN_PLACE, TAKEN_PLACE,
};
use crate::table::{Port, Word};
use crate::words::{Cell, Words, WordsMut};
use std::ops::{Deref, DerefMut};

/// The bytes of an image of `d` ports, lent for reading or for writing too. They are as long as such an image.
pub(crate) struct Held<B> {
    d: usize,
    bytes: B,
}

impl<B: Deref<Target = [u8]>> Held<B> {
    pub(crate) fn new(d: usize, bytes: B) -> Held<B> {
        Held { d, bytes }
    }

    fn two(&self, at: usize) -> u16 {
        u16::from_le_bytes([self.bytes[at], self.bytes[at + 1]])
    }

    fn eight(&self, at: usize) -> u64 {
        u64::from_le_bytes(
            *self.bytes[at..]
                .first_chunk()
                .expect("a place in the image"),
        )
    }
}

impl<B: DerefMut<Target = [u8]>> Held<B> {
    fn put(&mut self, at: usize, bytes: &[u8]) {
        self.bytes[at..at + bytes.len()].copy_from_slice(bytes);
    }
}

impl<B: Deref<Target = [u8]>> Words for Held<B> {
    fn d(&self) -> usize {
        self.d
    }

    fn active(&self) -> u64 {
        self.eight(ACTIVE_PLACE)
    }

    fn word(&self) -> Word {
        Word {
            taken: self.bytes[TAKEN_PLACE],
            owner: self.bytes[OWNER_PLACE],
            spin: self.two(SPIN_PLACE),
        }
    }

    fn port(&self, k: usize) -> Port {
        let record = self.bytes[port_place(k)..].first_chunk();
        unpacked(record.expect("a port of the image"))
    }

    // The rules ask for three sets of each port: without the hint each is a call.
    #[inline]
    fn copies(&self, cell: Cell) -> u64 {
        let at = set_place(self.d, cell);
        if narrow(self.d) {
            u64::from(self.two(at))
        } else {
            self.eight(at)
        }
    }
}

impl<B: DerefMut<Target = [u8]>> WordsMut for Held<B> {
    fn set_active(&mut self, active: u64) {
        self.put(ACTIVE_PLACE, &active.to_le_bytes());
    }

    fn set_word(&mut self, word: Word) {
        let [low, high] = word.spin.to_le_bytes();
        self.put(TAKEN_PLACE, &[word.taken, word.owner, low, high]);
    }

    fn set_port(&mut self, k: usize, port: Port) {
        self.put(port_place(k), &packed(&port));
    }

    fn renew(&mut self, cell: Cell, change: impl FnOnce(u64) -> u64) -> u64 {
        let at = set_place(self.d, cell);
        if narrow(self.d) {
            let before = u64::from(self.two(at));
            self.put(at, &(change(before) as u16).to_le_bytes());
            before
        } else {
            let before = self.eight(at);
            self.put(at, &change(before).to_le_bytes());
            before
        }
    }
}

/// A port from its record.
fn unpacked(record: &[u8; PORT]) -> Port {
    let two = |at: usize| u16::from_le_bytes([record[at], record[at + 1]]);
    Port {
        point: record[POINT],
        status: record[STATUS],
        flag: record[FLAG],
        value: record[VALUE],
        made: two(MADE),
        go: two(GO),
        own_spin: two(OWN_SPIN),
        seen_owner: record[SEEN_OWNER],
        seen_spin: two(SEEN_SPIN),
        candidate: record[CANDIDATE],
        candidate_spin: two(CANDIDATE_SPIN),
    }
}

/// The record of a port.
fn packed(p: &Port) -> [u8; PORT] {
    let (made, go) = (p.made.to_le_bytes(), p.go.to_le_bytes());
    let (own_spin, seen_spin) = (p.own_spin.to_le_bytes(), p.seen_spin.to_le_bytes());
    let candidate_spin = p.candidate_spin.to_le_bytes();
    [
        p.point,
        p.status,
        p.flag,
        p.value,
        made[0],
        made[1],
        go[0],
        go[1],
        own_spin[0],
        own_spin[1],
        p.seen_owner,
        seen_spin[0],
        seen_spin[1],
        p.candidate,
        candidate_spin[0],
        candidate_spin[1],
    ]
}
