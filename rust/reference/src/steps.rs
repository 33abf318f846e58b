//! The steps, and the next port round the ring.

use crate::points::{back, candidate_has, candidate_spin_has, own_spin_has, promotion, seen_has};
use crate::status;
use crate::table::{Port, Word};
use crate::words::{Cell, WordsMut};

/// The first port after `o` whose bit stands in `a`, counted upward and round the ring, `o` itself last.
/// Asked only of a set that isn't empty and of an owner below 64.
pub fn next(o: u8, a: u64) -> u8 {
    let above = a >> o >> 1 << 1 << o;
    let half = if above != 0 { above } else { a };
    half.trailing_zeros() as u8
}

/// One step of port `k`, which stands at a point that has one and is `p`. The costs are worked out before it, and `p` is put
/// back after it.
pub(crate) fn step(words: &mut impl WordsMut, k: usize, p: &mut Port) {
    p.point = match promotion(p.point) {
        Some(units) => promote(words, k, p, p.point - units, units),
        None => walk(words, k, p),
    };
    // Every working value that has no place at the next point becomes 0.
    if !own_spin_has(p.point) {
        p.own_spin = 0;
    }
    if !seen_has(p.point) {
        p.seen_owner = 0;
        p.seen_spin = 0;
    }
    if !candidate_has(p.point) {
        p.candidate = 0;
    }
    if !candidate_spin_has(p.point) {
        p.candidate_spin = 0;
    }
}

/// A step outside the promotion; gives the next point.
fn walk(words: &mut impl WordsMut, k: usize, p: &mut Port) -> u8 {
    let bit = 1u64 << k;
    let active = words.active();
    let own_bit_set = active & bit != 0;
    match p.point {
        1 => match p.status {
            status::CS => 11,
            status::EXIT => 13,
            _ => 2,
        },
        2 if p.flag == 1 => 12,
        2 => 3,
        3 => {
            p.own_spin = p.go;
            if p.go == 0 {
                4
            } else {
                5
            }
        }
        4 => {
            p.made += 1;
            p.go = p.made;
            p.own_spin = p.made;
            p.value = 0;
            words.renew(Cell::Spin(k), |_| 0);
            5
        }
        5 if own_bit_set => 20,
        5 => 6,
        6 => {
            words.set_active(active.wrapping_add(bit));
            20
        }
        8 if p.latest(p.own_spin) && p.value == 1 => 10,
        8 => 9,
        9 if p.flag == 1 => 12,
        9 => 8,
        10 => {
            p.status = status::CS;
            11
        }
        12 => {
            p.status = status::ABORT;
            14
        }
        13 => {
            p.status = status::EXIT;
            14
        }
        14 if own_bit_set => 15,
        14 => 16,
        15 => {
            words.set_active(active.wrapping_add(bit.wrapping_neg()));
            16
        }
        16 => {
            p.own_spin = p.go;
            30
        }
        17 => {
            let mut word = Word {
                taken: 1,
                owner: k as u8,
                spin: p.own_spin,
            };
            if words.word() == word {
                word.taken = 0;
                words.set_word(word);
            }
            40
        }
        18 => {
            p.go = 0;
            19
        }
        19 => {
            p.status = status::TRY;
            p.flag = 0;
            0
        }
        point => unreachable!("no step at point {point}"),
    }
}

/// A step of the promotion that starts at `tens`; gives the next point.
fn promote(words: &mut impl WordsMut, k: usize, p: &mut Port, tens: u8, units: u8) -> u8 {
    let word = words.word();
    let active = words.active();
    match units {
        0 => {
            p.seen_owner = word.owner;
            p.seen_spin = word.spin;
            if word.taken == 1 {
                tens + 4
            } else {
                tens + 1
            }
        }
        1 if active != 0 => {
            p.candidate = next(p.seen_owner, active);
            tens + 2
        }
        1 if tens == 30 => {
            p.candidate = k as u8;
            tens + 2
        }
        1 => tens + 4,
        2 => {
            p.candidate_spin = words.port(p.candidate as usize).go;
            tens + 3
        }
        3 => {
            let seen = Word {
                taken: 0,
                owner: p.seen_owner,
                spin: p.seen_spin,
            };
            if word == seen {
                words.set_word(Word {
                    taken: 1,
                    owner: p.candidate,
                    spin: p.candidate_spin,
                });
            }
            tens + 4
        }
        4 if word.taken == 1 && word.spin > 0 => {
            p.seen_owner = word.owner;
            p.seen_spin = word.spin;
            tens + 5
        }
        4 => back(tens),
        _ => {
            mark(words, k, p);
            back(tens)
        }
    }
}

/// Sets the seen owner's seen spin to 1, if it is that port's latest; the seen owner may be port `k` itself, which is `p`.
fn mark(words: &mut impl WordsMut, k: usize, p: &mut Port) {
    let owner = p.seen_owner as usize;
    let mut seen = words.port(owner);
    if !seen.latest(p.seen_spin) {
        return;
    }
    if owner == k {
        p.value = 1;
    } else {
        seen.value = 1;
        words.set_port(owner, seen);
    }
}
