//! The orders that every measurement carries out: a fixed mix, the same on every machine.

use reference::order::{CALL_OFF, CRASH, ENTER, LEAVE, STEP};

/// Pairs of port and event, one after the other: `count` of them over all of `d` ports.
/// Of a hundred, 80 are steps, 8 enter, 8 leave, 2 crash and 2 call off.
pub fn orders(d: u64, count: usize) -> Vec<u64> {
    let mut state = 0x9E37_79B9_7F4A_7C15u64;
    let mut pairs = Vec::with_capacity(2 * count);
    for _ in 0..count {
        state ^= state << 13;
        state ^= state >> 7;
        state ^= state << 17;
        let event = match state % 100 {
            0..80 => STEP,
            80..88 => ENTER,
            88..96 => LEAVE,
            96..98 => CRASH,
            _ => CALL_OFF,
        };
        pairs.extend([(state >> 32) % d, event]);
    }
    pairs
}

#[cfg(test)]
mod tests {
    use super::orders;
    use crate::job::SIZES;
    use reference::{event, fresh};

    /// The mix gets ports in and out again: a measurement of refusals alone would say nothing.
    #[test]
    fn the_mix_is_alive() {
        for d in SIZES {
            let (_, mut table) = fresh(d);
            let (mut done, mut left) = (0, 0);
            for order in orders(d, 10_000).chunks_exact(2) {
                if event(&mut table, order[0], order[1]).0 == 0 {
                    done += 1;
                    left += u64::from(order[1] == 5);
                }
            }
            assert!(done > 5_000, "{done} carried out at D = {d}");
            assert!(left > 5, "{left} left at D = {d}");
        }
    }
}
