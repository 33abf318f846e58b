//! Rules of good tables, places and refusals that the vectors touch seldom or never.

use reference::number::*;
use reference::order::*;
use reference::{bad, event, fresh, good, in_place, points, read, write, Table, LONGEST, ROOM};

const D: usize = 5;

/// A good table of five ports that have two spins each, with port 2 at `point`.
fn at(point: u8) -> Table {
    let (_, mut t) = fresh(D as u64);
    for p in &mut t.ports[..D] {
        p.made = 2;
    }
    t.ports[2].point = point;
    if point == 15 {
        t.active = 1 << 2;
    }
    if matches!(point, 25 | 35 | 45) {
        t.ports[2].seen_spin = 1;
    }
    assert!(good(&t), "point {point}");
    t
}

/// Points with a name, by document 01's table of steps and its promotion.
fn named() -> Vec<u8> {
    let mut all: Vec<u8> = (0..=6).chain(8..=19).collect();
    for tens in [20, 30, 40] {
        all.extend(tens..=tens + 5);
    }
    all
}

/// Whether `at(point)` stays good under a change: nothing is bad then.
fn stays(point: u8, change: impl Fn(&mut Table)) -> bool {
    let mut t = at(point);
    change(&mut t);
    assert_eq!(good(&t), bad(&t).is_none());
    good(&t)
}

#[test]
fn sizes() {
    for d in 0..=u8::MAX {
        assert_eq!(good(&Table::first(d)), (1..=64).contains(&d));
    }
}

#[test]
fn points_that_have_no_name() {
    let named = named();
    assert_eq!(named.len(), 37);
    for point in 0..=u8::MAX {
        assert_eq!(points::named(point), named.contains(&point));
        if !named.contains(&point) {
            assert!(!stays(0, |t| t.ports[2].point = point), "{point}");
        }
    }
    for point in [7, 26, 27, 28, 29, 36, 37, 38, 39, 46, 47, 50, 255] {
        assert!(!stays(0, |t| t.ports[2].point = point), "{point}");
    }
}

#[test]
fn codes_and_single_bits() {
    for code in 0..=u8::MAX {
        assert_eq!(stays(1, |t| t.ports[2].status = code), code <= 3);
        assert_eq!(stays(1, |t| t.ports[2].flag = code), code <= 1);
        assert_eq!(stays(1, |t| t.ports[2].value = code), code <= 1);
        assert_eq!(stays(1, |t| t.word.taken = code), code <= 1);
        assert_eq!(stays(1, |t| t.word.owner = code), (code as usize) < D);
    }
}

#[test]
fn bits_at_d_or_above() {
    for place in 0..64 {
        let bit = 1u64 << place;
        let fits = place < D;
        assert_eq!(stays(0, |t| t.active = bit), fits);
        assert_eq!(stays(0, |t| t.active_copies = bit), fits);
        assert_eq!(stays(0, |t| t.word_copies = bit), fits);
        for k in 0..D {
            assert_eq!(stays(0, |t| t.copies[k].status = bit), fits);
            assert_eq!(stays(0, |t| t.copies[k].go = bit), fits);
            assert_eq!(stays(0, |t| t.copies[k].spin = bit), fits);
        }
    }
}

#[test]
fn every_bit_has_its_port_at_64() {
    for (d, last) in [(63, false), (64, true)] {
        let (_, fresh) = fresh(d);
        let sets: [fn(&mut Table) -> &mut u64; 4] = [
            |t| &mut t.active,
            |t| &mut t.active_copies,
            |t| &mut t.word_copies,
            |t| &mut t.copies[0].go,
        ];
        for set in sets {
            let mut t = fresh;
            *set(&mut t) = u64::MAX;
            assert_eq!(good(&t), last);
            *set(&mut t) = u64::MAX >> 1;
            assert!(good(&t));
        }
    }
}

#[test]
fn spin_numbers_are_at_most_made() {
    for spin in 0..5 {
        let fits = spin <= 2;
        assert_eq!(stays(0, |t| t.word.spin = spin), fits);
        assert_eq!(stays(0, |t| t.ports[2].go = spin), fits);
        assert_eq!(stays(8, |t| t.ports[2].own_spin = spin), fits);
        assert_eq!(stays(21, |t| t.ports[2].seen_spin = spin), fits);
        assert_eq!(stays(23, |t| t.ports[2].candidate_spin = spin), fits);
    }
    // A spin belongs to the port that the value beside it names.
    for (made, fits) in [(1, false), (2, true)] {
        let seen = |t: &mut Table| {
            t.ports[4].made = made;
            t.ports[2].seen_owner = 4;
            t.ports[2].seen_spin = 2;
        };
        assert_eq!(stays(31, seen), fits);
        let candidate = |t: &mut Table| {
            t.ports[4].made = made;
            t.ports[2].candidate = 4;
            t.ports[2].candidate_spin = 2;
        };
        assert_eq!(stays(43, candidate), fits);
        let word = |t: &mut Table| {
            t.ports[4].made = made;
            t.word.owner = 4;
            t.word.spin = 2;
        };
        assert_eq!(stays(0, word), fits);
    }
}

#[test]
fn flag_at_point_0() {
    for point in named() {
        assert_eq!(stays(point, |t| t.ports[2].flag = 1), point != 0);
    }
}

#[test]
fn own_bit_at_6_and_15() {
    for point in named() {
        assert_eq!(stays(point, |t| t.active = 1 << 2), point != 6, "{point}");
        assert_eq!(stays(point, |t| t.active = 0), point != 15, "{point}");
        // Another port's bit does not matter.
        assert!(stays(point, |t| t.active |= 1 << 3), "{point}");
    }
}

#[test]
fn room_above_d_is_0() {
    let changes: [fn(&mut Table, usize); 14] = [
        |t, k| t.ports[k].point = 1,
        |t, k| t.ports[k].status = 1,
        |t, k| t.ports[k].flag = 1,
        |t, k| t.ports[k].value = 1,
        |t, k| t.ports[k].made = 1,
        |t, k| t.ports[k].go = 1,
        |t, k| t.ports[k].own_spin = 1,
        |t, k| t.ports[k].seen_owner = 1,
        |t, k| t.ports[k].seen_spin = 1,
        |t, k| t.ports[k].candidate = 1,
        |t, k| t.ports[k].candidate_spin = 1,
        |t, k| t.copies[k].status = 1,
        |t, k| t.copies[k].go = 1,
        |t, k| t.copies[k].spin = 1,
    ];
    for k in D..ROOM {
        for change in changes {
            assert!(!stays(0, |t| change(t, k)));
        }
    }
}

#[test]
fn made_0_has_no_value_and_no_copies() {
    let none = |t: &mut Table| t.ports[2].made = 0;
    assert!(stays(1, none));
    assert!(!stays(1, |t| {
        none(t);
        t.ports[2].value = 1;
    }));
    assert!(!stays(1, |t| {
        none(t);
        t.copies[2].spin = 1;
    }));
    assert!(stays(1, |t| {
        t.ports[2].value = 1;
        t.copies[2].spin = 1;
    }));
}

#[test]
fn seen_spin_at_x5() {
    for point in [25, 35, 45] {
        assert!(!stays(point, |t| t.ports[2].seen_spin = 0));
        assert!(stays(point, |t| t.ports[2].seen_spin = 2));
    }
    for point in [21, 22, 23, 31, 32, 33, 41, 42, 43] {
        assert!(stays(point, |t| t.ports[2].seen_spin = 0));
    }
}

#[test]
fn places_of_the_working_values() {
    for point in named() {
        let units = if point >= 20 { point % 10 } else { 9 };
        let own = [5, 6, 8, 9, 10, 17].contains(&point) || (20..=35).contains(&point);
        let seen = [1, 2, 3, 5].contains(&units);
        let candidate = [2, 3].contains(&units);
        assert_eq!(stays(point, |t| t.ports[2].own_spin = 1), own, "{point}");
        assert_eq!(stays(point, |t| t.ports[2].seen_owner = 1), seen, "{point}");
        assert_eq!(stays(point, |t| t.ports[2].seen_spin = 1), seen, "{point}");
        assert_eq!(
            stays(point, |t| t.ports[2].candidate = 1),
            candidate,
            "{point}"
        );
        assert_eq!(
            stays(point, |t| t.ports[2].candidate_spin = 1),
            units == 3,
            "{point}"
        );
    }
}

#[test]
fn owners_and_candidates_are_below_d() {
    for port in 0..=u8::MAX {
        let fits = (port as usize) < D;
        assert_eq!(stays(21, |t| t.ports[2].seen_owner = port), fits);
        assert_eq!(stays(22, |t| t.ports[2].candidate = port), fits);
    }
}

#[test]
fn worn() {
    let (_, mut t) = fresh(1);
    t.ports[0].made = u16::MAX;
    let before = t;
    assert_eq!(event(&mut t, 0, ENTER), (WORN, 0, 0));
    assert_eq!(t, before);
    // E elsewhere is BUSY, worn or not.
    t.ports[0].point = 3;
    assert_eq!(event(&mut t, 0, ENTER), (BUSY, 0, 0));
    assert_eq!(event(&mut t, 0, STEP), (DONE, 1, 0));
    let before = t;
    assert_eq!(event(&mut t, 0, STEP), (WORN, 0, 0));
    assert_eq!(t, before);
    // A crash and a call-off are still carried out there.
    assert_eq!(event(&mut t, 0, CALL_OFF), (DONE, 0, 0));
    assert_eq!(event(&mut t, 0, CRASH), (DONE, 0, 0));
    // The last spin can be made.
    t.ports[0].point = 4;
    t.ports[0].made = u16::MAX - 1;
    assert_eq!(event(&mut t, 0, STEP), (DONE, 1, 0));
    assert_eq!(t.ports[0].go, u16::MAX);
}

#[test]
fn a_bad_table_is_refused_and_stays() {
    for point in named() {
        let mut t = at(point);
        t.ports[2].status = 4;
        let before = t;
        for order in 0..=6 {
            // 1.2 at port 2, whose STATUS is the second byte of its record.
            let answer = BAD_TABLE | 2 << 8 | 2 << 16 | (26 + 32 + 1) << 24;
            assert_eq!(event(&mut t, 2, order), (answer, 0, 0));
            assert_eq!(t, before);
        }
    }
}

#[test]
fn every_event_at_every_point_keeps_the_table_good() {
    for point in named() {
        for order in 0..=6 {
            for flag in [0, 1] {
                for status in 0..=3 {
                    let mut t = at(point);
                    t.ports[2].flag = if point == 0 { 0 } else { flag };
                    t.ports[2].status = status;
                    let before = t;
                    let (number, cached, distributed) = event(&mut t, 2, order);
                    assert!(good(&t));
                    if number != DONE {
                        assert_eq!(t, before);
                    }
                    if number != DONE || order != STEP {
                        assert_eq!((cached, distributed), (0, 0));
                    }
                }
            }
        }
    }
}

#[test]
fn a_crash_keeps_all_but_point_and_working_values() {
    let mut t = at(23);
    t.ports[2].flag = 1;
    t.ports[2].status = 3;
    t.ports[2].go = 2;
    t.ports[2].value = 1;
    t.ports[2].own_spin = 2;
    t.ports[2].seen_owner = 1;
    t.ports[2].seen_spin = 1;
    t.ports[2].candidate = 3;
    t.ports[2].candidate_spin = 1;
    t.active = 0b110;
    t.active_copies = 0b101;
    t.copies[2].spin = 0b11;
    let mut want = t;
    want.ports[2].point = 1;
    want.ports[2].own_spin = 0;
    want.ports[2].seen_owner = 0;
    want.ports[2].seen_spin = 0;
    want.ports[2].candidate = 0;
    want.ports[2].candidate_spin = 0;
    assert_eq!(event(&mut t, 2, CRASH), (DONE, 0, 0));
    assert_eq!(t, want);
}

#[test]
fn an_older_spin_reads_as_0_and_swallows_writes() {
    let mut t = at(8);
    t.ports[2].value = 1;
    t.ports[2].own_spin = 1;
    t.copies[2].spin = 0b100;
    assert_eq!(event(&mut t, 2, STEP), (DONE, 1, 0));
    assert_eq!((t.ports[2].point, t.copies[2].spin), (9, 0b100));
    let mut t = at(45);
    t.ports[2].seen_owner = 3;
    t.copies[3].spin = 0b1000;
    assert_eq!(event(&mut t, 2, STEP), (DONE, 1, 1));
    assert_eq!((t.ports[3].value, t.copies[3].spin), (0, 0b1000));
    assert_eq!(t.ports[2].point, 18);
}

#[test]
fn a_failed_swap_takes_all_copies() {
    let mut t = at(17);
    t.word_copies = 0b11011;
    assert_eq!(event(&mut t, 2, STEP), (DONE, 1, 1));
    assert_eq!((t.word.taken, t.word_copies), (0, 0b100));
}

/// A good table of seventeen ports, the fewest of version 2.
fn seventeen() -> Table {
    let mut t = at(23);
    t.d = 17;
    t.active = 1 << 16;
    t.word_copies = 1 << 16;
    assert!(good(&t));
    t
}

#[test]
fn every_damaged_byte_of_an_image_is_noticed_or_read() {
    for t in [at(23), seventeen()] {
        let mut room = [0; LONGEST];
        let (_, length) = write(&t, &mut room);
        let image = &mut room[..length];
        for place in 0..length {
            let whole = image[place];
            for byte in (0..=u8::MAX).filter(|byte| *byte != whole) {
                image[place] = byte;
                damaged(image, place);
            }
            image[place] = whole;
        }
    }
}

/// An image with a damage at `place`: the reader notices it, or gives the table of which it is the image.
fn damaged(image: &[u8], place: usize) {
    let (answer, table) = read(image);
    assert_eq!(in_place::check(image), answer);
    match answer & 255 {
        DONE => {
            let mut again = [0; LONGEST];
            assert_eq!(write(&table, &mut again), (DONE, image.len()));
            assert_eq!(&again[..image.len()], image);
        }
        BAD_TABLE | BAD_IMAGE => {
            assert_eq!(table, fresh(1).1);
            assert_eq!(answer == BAD_IMAGE, place < 14);
        }
        number => panic!("number {number}"),
    }
}
