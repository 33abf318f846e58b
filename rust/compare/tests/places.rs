//! The bytes of an image that an event changes are those that the header names for it, and each of these is changed at some
//! time. Without YARVELOW_LIB there is no archive and nothing is looked at.

#![cfg(archive)]

use compare::generate::{any_order, good_table, size};
use compare::{Archive, Engine, Random};
use reference::points::{promotion, touch, Object};
use reference::{order, write, Table, LONGEST};
use std::collections::BTreeSet;
use std::ops::Range;
use yarvelow::{point_place, TAKEN_PLACE};

/// Where a copy set stands: those of ACTIVE and the word, then three for each port.
fn set_place(t: &Table, number: usize) -> Range<usize> {
    let d = usize::from(t.d);
    let width = if d <= 16 { 2 } else { 8 };
    let start = point_place(d) + number * width;
    start..start + width
}

/// What an event of port `k` may write, by name.
fn named(t: &Table, k: usize, event: u64) -> Vec<(&'static str, Range<usize>)> {
    let p = &t.ports[k];
    let mut all = vec![("record", point_place(k)..point_place(k) + 16)];
    if event != order::STEP {
        return all;
    }
    let (seen, candidate) = (usize::from(p.seen_owner), usize::from(p.candidate));
    let value = point_place(seen) + 3;
    match (p.point, promotion(p.point)) {
        (6 | 15, _) => all.push(("ACTIVE", 14..22)),
        (17, _) | (_, Some(3)) => all.push(("word", TAKEN_PLACE..TAKEN_PLACE + 4)),
        (_, Some(5)) => all.push(("latest value", value..value + 1)),
        (4, _) => all.push(("copies of the new spin", set_place(t, 4 + 3 * k))),
        _ => {}
    }
    if let Some((object, _)) = touch(p.point) {
        let number = match object {
            Object::Active => 0,
            Object::Word => 1,
            Object::Status => 2 + 3 * k,
            Object::Go => 3 + 3 * k,
            Object::OwnSpin => 4 + 3 * k,
            Object::CandidateGo => 3 + 3 * candidate,
            Object::SeenSpin => 4 + 3 * seen,
        };
        all.push(("copies", set_place(t, number)));
    }
    all
}

#[test]
fn an_event_changes_the_bytes_that_are_named() {
    let mut random = Random::new(5);
    let mut met = BTreeSet::new();
    for _ in 0..40_000 {
        let d = size(&mut random);
        let t = good_table(&mut random, d);
        let (port, event) = any_order(&mut random, d);
        let mut before = [0; LONGEST];
        let (_, length) = write(&t, &mut before);
        let mut after = before;
        let answer = Archive.event(&mut after[..length], port, event);
        if answer & 255 != 0 {
            assert_eq!(before, after);
            continue;
        }
        let places = named(&t, port as usize, event);
        for place in (0..length).filter(|place| before[*place] != after[*place]) {
            let name = places.iter().find(|(_, places)| places.contains(&place));
            let point = t.ports[port as usize].point;
            let what = || format!("event {event} of port {port} at {point}, byte {place}");
            met.insert((d > 16, name.unwrap_or_else(|| panic!("{}", what())).0));
        }
    }
    assert_eq!(met.len(), 12, "{met:?}");
}
