//! Tables, schedules and damaged images made at random.

use crate::random::Random;
use reference::{good, order, points, Port, Table, Word, LONGEST, ROOM};

/// Points of every kind, those of the promotion and those that touch ACTIVE or the word more often.
const POINTS: [u8; 52] = [
    0, 1, 2, 3, 4, 5, 6, 8, 9, 10, 11, 12, 13, 14, 15, 16, 17, 18, 19, 20, 21, 22, 23, 24, 25, 30,
    31, 32, 33, 34, 35, 40, 41, 42, 43, 44, 45, 4, 6, 8, 15, 17, 21, 23, 25, 31, 33, 35, 41, 43,
    45, 17,
];

/// Counts of spins made, with the ends of their range.
const MADE: [u16; 10] = [0, 0, 1, 1, 2, 3, 255, 256, u16::MAX - 1, u16::MAX];

/// A good table of `d` ports, mostly one that no schedule reaches.
pub fn good_table(random: &mut Random, d: u64) -> Table {
    let mut t = Table::first(d as u8);
    let ports = d as usize;
    for port in &mut t.ports[..ports] {
        port.made = random.one_of(&MADE);
        if random.once_in(4) {
            port.made = random.number() as u16;
        }
        port.go = spin_near(random, port.made, port.made);
        port.value = (port.made != 0 && random.once_in(2)) as u8;
        port.status = random.below(4) as u8;
    }
    let owner = random.below(d) as u8;
    t.word = Word {
        taken: random.below(2) as u8,
        owner,
        spin: spin_of(random, &t, owner),
    };
    for k in 0..ports {
        let port = working_port(random, &t, k);
        t.ports[k] = port;
    }
    t.active = below_d(random, d);
    for k in 0..ports {
        match t.ports[k].point {
            6 => t.active &= !(1 << k),
            15 => t.active |= 1 << k,
            _ => {}
        }
    }
    t.active_copies = below_d(random, d);
    t.word_copies = below_d(random, d);
    for k in 0..ports {
        t.copies[k].status = below_d(random, d);
        t.copies[k].go = below_d(random, d);
        if t.ports[k].made != 0 {
            t.copies[k].spin = below_d(random, d);
        }
    }
    debug_assert!(good(&t));
    t
}

/// Port `k` with a point, a flag and the working values that have their place there.
fn working_port(random: &mut Random, t: &Table, k: usize) -> Port {
    let mut port = t.ports[k];
    port.point = random.one_of(&POINTS);
    let with_spins: Vec<u8> = (0..t.d).filter(|o| t.ports[*o as usize].made > 0).collect();
    if points::promotion(port.point) == Some(5) && with_spins.is_empty() {
        port.point -= 1;
    }
    port.flag = (port.point != 0 && random.once_in(3)) as u8;
    if points::own_spin_has(port.point) {
        port.own_spin = spin_near(random, port.made, port.go);
    }
    if points::promotion(port.point) == Some(5) {
        port.seen_owner = random.one_of(&with_spins);
        port.seen_spin = spin_of(random, t, port.seen_owner).max(1);
    } else if points::seen_has(port.point) {
        // Mostly the word itself, so that swaps take.
        port.seen_owner = t.word.owner;
        port.seen_spin = t.word.spin;
        if random.once_in(3) {
            port.seen_owner = random.below(u64::from(t.d)) as u8;
            port.seen_spin = spin_of(random, t, port.seen_owner);
        }
    }
    if points::candidate_has(port.point) {
        port.candidate = random.below(u64::from(t.d)) as u8;
    }
    if points::candidate_spin_has(port.point) {
        port.candidate_spin = spin_of(random, t, port.candidate);
    }
    port
}

/// A spin number of port `k`.
fn spin_of(random: &mut Random, t: &Table, k: u8) -> u16 {
    let port = &t.ports[k as usize];
    spin_near(random, port.made, port.go)
}

/// A spin number up to `made`: none, the latest, the one before, a given one, or any.
fn spin_near(random: &mut Random, made: u16, near: u16) -> u16 {
    match random.below(8) {
        0 => 0,
        1 | 2 => made,
        3 => made.saturating_sub(1),
        4 => random.below(u64::from(made) + 1) as u16,
        _ => near,
    }
}

/// A set of ports below D: none, all, or any.
fn below_d(random: &mut Random, d: u64) -> u64 {
    let all = u64::MAX >> (u64::BITS as u64 - d);
    match random.below(6) {
        0 => 0,
        1 => all,
        _ => random.number() & all,
    }
}

/// A table of `d` ports with one to three fields changed, so that mostly it is bad. Every set of it has a place in the image.
pub fn bad_table(random: &mut Random, d: u64) -> Table {
    let mut t = good_table(random, d);
    for _ in 0..random.one_of(&[1, 1, 1, 2, 3]) {
        change(random, &mut t, d);
    }
    t
}

/// Changes a field of what all share, of a port, or a copy set.
fn change(random: &mut Random, t: &mut Table, d: u64) {
    let k = random.below(d) as usize;
    let made = |j: u8| t.ports.get(usize::from(j)).map_or(0, |port| port.made);
    let (word, port) = (t.word, t.ports[k]);
    match random.below(20) {
        0 => t.active = any_set(random, d, 64),
        1 => t.word.taken = any_byte(random, d),
        2 => t.word.owner = any_byte(random, d),
        3 => t.word.spin = any_spin(random, made(word.owner)),
        4 => t.ports[k].point = random.one_of(&POINTS),
        5 => t.ports[k].point = any_byte(random, 7),
        6 => t.ports[k].status = any_byte(random, d),
        7 => t.ports[k].flag = any_byte(random, d),
        8 => t.ports[k].value = any_byte(random, d),
        9 => t.ports[k].made = any_spin(random, port.made),
        10 => t.ports[k].go = any_spin(random, port.made),
        11 => t.ports[k].own_spin = any_spin(random, port.made),
        12 => t.ports[k].seen_owner = any_byte(random, d),
        13 => t.ports[k].seen_spin = any_spin(random, made(port.seen_owner)),
        14 => t.ports[k].candidate = any_byte(random, d),
        15 => t.ports[k].candidate_spin = any_spin(random, made(port.candidate)),
        16 => t.active_copies = any_set(random, d, set_bits(d)),
        17 => t.word_copies = any_set(random, d, set_bits(d)),
        18 => t.copies[k].status = any_set(random, d, set_bits(d)),
        _ => {
            t.copies[k].go = any_set(random, d, set_bits(d));
            t.copies[k].spin = any_set(random, d, set_bits(d));
        }
    }
}

/// The bits of a copy set in the image of `d` ports.
fn set_bits(d: u64) -> u64 {
    if d <= NARROW {
        16
    } else {
        64
    }
}

/// A set of ports below D, or of any of so many, or of one at D or above.
fn any_set(random: &mut Random, d: u64, bits: u64) -> u64 {
    match random.below(3) {
        0 => below_d(random, d),
        1 => below_d(random, bits),
        _ => 1 << random.below(bits).max(d.min(bits - 1)),
    }
}

/// A byte, mostly around the ends of a range.
fn any_byte(random: &mut Random, d: u64) -> u8 {
    let (d, any) = (d as u8, random.number() as u8);
    random.one_of(&[0, 1, 2, 3, 4, d - 1, d, d + 1, 0xFF, any])
}

/// A spin number around those up to `made`.
fn any_spin(random: &mut Random, made: u16) -> u16 {
    let (above, any) = (made.saturating_add(1), random.number() as u16);
    random.one_of(&[0, 1, made, made / 2, above, above, any])
}

/// The most ports of an image of version 1.
const NARROW: u64 = 16;

/// A number of ports from 1 to the room: half of them of each version, and the ends of either more often.
pub fn size(random: &mut Random) -> u64 {
    match random.below(16) {
        0 => 1,
        1 => 2,
        2 => NARROW,
        3..=7 => 1 + random.below(NARROW),
        8 => NARROW + 1,
        9 => ROOM as u64 - 1,
        10 => ROOM as u64,
        _ => NARROW + 1 + random.below(ROOM as u64 - NARROW),
    }
}

/// A port and an event for a table of `d` ports; once in a while one that there isn't.
pub fn any_order(random: &mut Random, d: u64) -> (u64, u64) {
    let port = match random.below(40) {
        0 => d,
        1 => random.number(),
        _ => random.below(d),
    };
    let event = match random.below(40) {
        0 => 0,
        1 => 6,
        2 => random.number(),
        3..=19 => order::STEP,
        _ => 1 + random.below(5),
    };
    (port, event)
}

/// How often the events of a schedule come.
#[derive(Clone, Copy, Debug)]
pub struct Mood {
    /// A crash once in so many events, 0 for never.
    pub crash: u64,
    /// A call-off once in so many events, 0 for never.
    pub call_off: u64,
    /// Ports that act for a while before another does: about so many events each.
    pub stretch: u64,
}

impl Mood {
    /// One of several kinds of schedule.
    pub fn any(random: &mut Random) -> Mood {
        Mood {
            crash: random.one_of(&[0, 0, 10, 50, 300]),
            call_off: random.one_of(&[0, 0, 10, 50, 300]),
            stretch: random.one_of(&[1, 1, 3, 10, 40]),
        }
    }
}

/// A schedule for a table of `d` ports, pairs of port and event. Most events can be carried out.
pub fn schedule(random: &mut Random, d: u64, mood: Mood, length: usize) -> Vec<(u64, u64)> {
    let (_, mut t) = reference::fresh(d);
    let mut port = 0;
    let mut orders = Vec::with_capacity(length);
    for _ in 0..length {
        if random.once_in(mood.stretch) {
            port = random.below(d);
        }
        let event = next_event(random, &t.ports[port as usize], mood);
        let pair = if random.once_in(200) {
            any_order(random, d)
        } else {
            (port, event)
        };
        reference::event_unchecked(&mut t, pair.0, pair.1);
        orders.push(pair);
    }
    orders
}

/// What a port does next.
fn next_event(random: &mut Random, port: &Port, mood: Mood) -> u64 {
    if mood.crash != 0 && random.once_in(mood.crash) {
        return order::CRASH;
    }
    if mood.call_off != 0 && random.once_in(mood.call_off) {
        return order::CALL_OFF;
    }
    match port.point {
        0 => order::ENTER,
        11 => order::LEAVE,
        _ => order::STEP,
    }
}

/// An image with something wrong, or at least changed: a byte, a field of the head, version and D that do not go together, the
/// length, or all of it.
pub fn damaged(random: &mut Random, image: &[u8]) -> Vec<u8> {
    let mut bytes = image.to_vec();
    let length = bytes.len() as u64;
    match random.below(11) {
        0..=2 => {
            let place = random.below(length) as usize;
            bytes[place] ^= 1 << random.below(8);
        }
        3 => {
            let place = random.below(length) as usize;
            bytes[place] = random.one_of(&[0, 1, 2, 7, 16, 17, 64, 65, 0xFE, 0xFF]);
        }
        4 => {
            let place = random.below(14) as usize;
            bytes[place] = bytes[place].wrapping_add(random.one_of(&[1, 255, 16, 128]));
        }
        5 => bytes.truncate(random.below(length) as usize),
        6 => {
            for _ in 0..=random.below(30) {
                bytes.push(random.one_of(&[0, 1, 0xFF]));
            }
        }
        7 => bytes[0] = random.one_of(&[0, 1, 2, 3, 4, 0xFF]),
        8 => bytes[1] = random.one_of(&[0, 1, 16, 17, 64, 65, 0xFF]),
        9 => bytes = other_version(image),
        _ => bytes.iter_mut().for_each(|b| *b = random.number() as u8),
    }
    bytes
}

/// The same table in the form of the version that does not go with its D, whole but for that: copy sets get eight bytes in
/// place of two, or keep two of eight.
pub fn other_version(image: &[u8]) -> Vec<u8> {
    let d = usize::from(image[1]);
    let sets = 26 + 16 * d;
    let (version, width, other) = match image[0] {
        1 => (2, 2, 8),
        _ => (1, 8, 2),
    };
    let mut bytes = image[..sets].to_vec();
    for set in image[sets..].chunks_exact(width) {
        let mut wide = [0; 8];
        wide[..width].copy_from_slice(set);
        bytes.extend_from_slice(&wide[..other]);
    }
    bytes[0] = version;
    let long = (bytes.len() - sets) as u16;
    bytes[12..14].copy_from_slice(&long.to_le_bytes());
    bytes
}

/// A length for the room that the image after an event is to go into: too short, just right, or longer.
pub fn room_for(random: &mut Random, image: &[u8]) -> usize {
    let long = image.len();
    match random.below(8) {
        0 => 0,
        1 => random.below(long as u64 + 1) as usize,
        2 => long.saturating_sub(1),
        3 => long + 1,
        4 => long + random.below(100) as usize,
        5 => LONGEST,
        _ => long,
    }
}
