//! Good tables, rule by rule in document 01's order.

use crate::points::{candidate_has, candidate_spin_has, named, own_spin_has, seen_has};
use crate::status;
use crate::table::{Copies, Port, Table, ROOM};
use crate::words::{Cell, Words};

/// Whether a table is good: D and the room above it, and the rules for the words of its ports.
pub fn good(t: &Table) -> bool {
    // Every later rule indexes ports below D.
    in_range(t) && sound(t) && room_empty(t)
}

/// D is among those named.
pub(crate) fn in_range(t: &Table) -> bool {
    (1..=ROOM).contains(&(t.d as usize))
}

/// Room kept for ports at or above D is all 0.
pub(crate) fn room_empty(t: &Table) -> bool {
    let d = t.d as usize;
    t.ports[d..].iter().all(|p| *p == Port::default())
        && t.copies[d..].iter().all(|c| *c == Copies::default())
}

/// The rules as they speak of the shared words and of each port below D.
pub(crate) fn sound(words: &impl Words) -> bool {
    let d = words.d();
    let above = beyond(d);
    let (active, word) = (words.active(), words.word());
    // Taken is 0 or 1.
    word.taken <= 1
        // No bit at D or above stands anywhere.
        && active & above == 0
        && words.copies(Cell::Active) & above == 0
        && words.copies(Cell::Word) & above == 0
        // Owners are below D, and a spin number is at most its port's made.
        && (word.owner as usize) < d
        && word.spin <= words.port(word.owner as usize).made
        && (0..d).all(|k| port_sound(words, k, above, active >> k & 1))
}

/// The bits at `d` or above.
pub(crate) fn beyond(d: usize) -> u64 {
    u64::MAX.checked_shl(d as u32).unwrap_or(0)
}

/// The rules that speak of a port, for port `k` below D with its own bit of ACTIVE.
fn port_sound(words: &impl Words, k: usize, above: u64, own_bit: u64) -> bool {
    let d = words.d();
    let p = words.port(k);
    let spin_copies = words.copies(Cell::Spin(k));
    // Points and codes are among those named.
    named(p.point)
        && p.status <= status::ABORT
        // Flags and latest values are 0 or 1.
        && p.flag <= 1
        && p.value <= 1
        // No bit at D or above stands anywhere.
        && words.copies(Cell::Status(k)) & above == 0
        && words.copies(Cell::Go(k)) & above == 0
        && spin_copies & above == 0
        // Owners and candidates are below D.
        && (p.seen_owner as usize) < d
        && (p.candidate as usize) < d
        // Every spin number is at most its port's made.
        && p.go <= p.made
        && p.own_spin <= p.made
        && p.seen_spin <= words.port(p.seen_owner as usize).made
        && p.candidate_spin <= words.port(p.candidate as usize).made
        // A port at point 0 has flag 0.
        && (p.point != 0 || p.flag == 0)
        // A port at 6 has its own bit in ACTIVE clear, and one at 15 has it set.
        && (p.point != 6 || own_bit == 0)
        && (p.point != 15 || own_bit == 1)
        // Made 0 goes with latest value 0, and with an empty copy set for that spin.
        && (p.made != 0 || p.value == 0)
        && (p.made != 0 || spin_copies == 0)
        // A port at 25, 35 or 45 has a seen spin above 0.
        && (!matches!(p.point, 25 | 35 | 45) || p.seen_spin > 0)
        // Every working value is 0 outside its points.
        && (own_spin_has(p.point) || p.own_spin == 0)
        && (seen_has(p.point) || (p.seen_owner == 0 && p.seen_spin == 0))
        && (candidate_has(p.point) || p.candidate == 0)
        && (candidate_spin_has(p.point) || p.candidate_spin == 0)
}
