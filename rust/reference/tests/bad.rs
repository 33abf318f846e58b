//! What is bad (request R-2): every rule with its field, kind, port and place by hand, and the lowest place of several.

use reference::number::{BAD_TABLE, DONE};
use reference::order::ENTER;
use reference::{
    bad, boundary, event, good, image, in_place, read, rules, write, Fault, Table, ROOM,
};

/// A good table of `d` ports that have two spins each; port `k` is at `point`.
fn at(d: u8, k: usize, point: u8) -> Table {
    let mut t = Table::first(d);
    for p in &mut t.ports[..d as usize] {
        p.made = 2;
    }
    t.ports[k].point = point;
    if point == 15 {
        t.active = 1 << k;
    }
    if matches!(point, 25 | 35 | 45) {
        t.ports[k].seen_spin = 1;
    }
    assert!(good(&t));
    t
}

/// Kind, port and place of what is bad.
fn told(t: &Table) -> Told {
    let fault = bad(t).expect("a bad table");
    (fault.kind, fault.port, fault.place)
}

/// A change of a table, with a port; kind, port and place of what is bad.
type Change = fn(&mut Table, usize);
type Told = (u64, u64, u64);

/// The point of a port, a change there, and what is bad then.
type Case = (u8, Change, Told);

/// Every rule at D = 5, port 2: the record of port k is at 26 + 16 k, the copy sets are from 106 on, two bytes each.
const CASES: [Case; 32] = [
    (0, |t, _| t.active = 1 << 5, (1, 5, 14)),
    (0, |t, _| t.word.taken = 2, (1, 5, 22)),
    (0, |t, _| t.word.owner = 5, (1, 5, 23)),
    (0, |t, _| (t.word.owner, t.word.spin) = (4, 3), (2, 4, 94)),
    (0, |t, k| t.ports[k].point = 7, (2, 2, 58)),
    (6, |t, k| t.active = 1 << k, (2, 2, 58)),
    (15, |t, _| t.active = 0, (2, 2, 58)),
    (0, |t, k| t.ports[k].status = 4, (2, 2, 59)),
    (1, |t, k| t.ports[k].flag = 2, (2, 2, 60)),
    (0, |t, k| t.ports[k].flag = 1, (2, 2, 60)),
    (0, |t, k| t.ports[k].value = 2, (2, 2, 61)),
    (
        0,
        |t, k| (t.ports[k].made, t.ports[k].value) = (0, 1),
        (2, 2, 62),
    ),
    (0, |t, k| t.ports[k].go = 3, (2, 2, 64)),
    (8, |t, k| t.ports[k].own_spin = 3, (3, 2, 66)),
    (0, |t, k| t.ports[k].own_spin = 1, (3, 2, 66)),
    (21, |t, k| t.ports[k].seen_owner = 5, (3, 2, 68)),
    (20, |t, k| t.ports[k].seen_owner = 1, (3, 2, 68)),
    (20, |t, k| t.ports[k].seen_spin = 1, (3, 2, 69)),
    (25, |t, k| t.ports[k].seen_spin = 0, (3, 2, 69)),
    // Made of a port whose record comes later stands after the spin; of the port itself and of those before, not.
    (
        21,
        |t, k| (t.ports[k].seen_owner, t.ports[k].seen_spin) = (3, 3),
        (2, 3, 78),
    ),
    (
        21,
        |t, k| (t.ports[k].seen_owner, t.ports[k].seen_spin) = (2, 3),
        (3, 2, 69),
    ),
    (22, |t, k| t.ports[k].candidate = 5, (3, 2, 71)),
    (21, |t, k| t.ports[k].candidate = 1, (3, 2, 71)),
    (22, |t, k| t.ports[k].candidate_spin = 1, (3, 2, 72)),
    (
        23,
        |t, k| (t.ports[k].candidate, t.ports[k].candidate_spin) = (4, 3),
        (2, 4, 94),
    ),
    (
        23,
        |t, k| (t.ports[k].candidate, t.ports[k].candidate_spin) = (1, 3),
        (3, 2, 72),
    ),
    (0, |t, _| t.active_copies = 1 << 5, (4, 5, 106)),
    (0, |t, _| t.word_copies = 1 << 15, (4, 5, 108)),
    (0, |t, k| t.copies[k].status = 1 << 5, (4, 2, 122)),
    (0, |t, k| t.copies[k].go = 1 << 5, (4, 2, 124)),
    (0, |t, k| t.copies[k].spin = 1 << 5, (4, 2, 126)),
    (
        0,
        |t, k| (t.ports[k].made, t.copies[k].spin) = (0, 1),
        (4, 2, 126),
    ),
];

#[test]
fn each_rule_has_its_field() {
    let mut met: Vec<&str> = Vec::new();
    for (i, (point, change, want)) in CASES.into_iter().enumerate() {
        let mut t = at(5, 2, point);
        change(&mut t, 2);
        assert_eq!(told(&t), want, "case {i}");
        // One rule alone fails.
        let failing: Vec<_> = rules(&t).into_iter().filter(|rule| !rule.holds).collect();
        assert_eq!(failing.len(), 1, "case {i}: {failing:?}");
        met.push(failing[0].name);
    }
    for rule in rules(&at(5, 2, 21)) {
        let whole = rule.fault == Fault::WHOLE;
        assert!(
            whole || met.contains(&rule.name),
            "no case for: {}",
            rule.name
        );
    }
}

#[test]
fn every_function_says_it() {
    for (point, change, (kind, port, place)) in CASES {
        let mut t = at(5, 2, point);
        change(&mut t, 2);
        let before = t;
        let answer = BAD_TABLE | kind << 8 | port << 16 | place << 24;
        assert_eq!(event(&mut t, 9, 9), (answer, 0, 0));
        assert_eq!(write(&t, &mut []), (answer, 0));
        assert_eq!(t, before);
        let bytes = image(&t);
        assert_eq!(read(&bytes), (answer, Table::first(1)));
        let (mut held, mut told) = (bytes.clone(), [7]);
        assert_eq!(boundary::check(&held), answer);
        assert_eq!(boundary::event(&mut held, 9, 9), answer);
        assert_eq!(boundary::event_into(&held, &mut [], 0, ENTER), answer);
        assert_eq!(boundary::run(&mut held, &[0, ENTER], &mut told), answer);
        assert_eq!(in_place::check(&held), answer);
        assert_eq!(in_place::event(&mut held, 9, 9), answer);
        assert_eq!(in_place::event_into(&held, &mut [], 0, ENTER), answer);
        assert_eq!(in_place::run(&mut held, &[0, ENTER], &mut told), answer);
        assert_eq!((held, told), (bytes, [7]));
    }
}

#[test]
fn the_lowest_place_decides() {
    let mut pairs = 0;
    for (first, second) in CASES
        .into_iter()
        .flat_map(|first| CASES.map(move |second| (first, second)))
    {
        // Ports 1 and 3 have a case each; both are tried together where neither undoes the other.
        let mut base = at(5, 1, first.0);
        let other = at(5, 3, second.0);
        base.ports[3] = other.ports[3];
        base.active |= other.active;
        let with = |changes: &[(Change, usize)]| {
            let mut t = base;
            changes.iter().for_each(|(change, k)| change(&mut t, *k));
            t
        };
        let (one, two) = ((first.1, 1), (second.1, 3));
        let both = with(&[one, two]);
        if both == with(&[two, one]) {
            let (one, two) = (told(&with(&[one])), told(&with(&[two])));
            let lower = if one.2 <= two.2 { one } else { two };
            assert_eq!(told(&both), lower, "{one:?} and {two:?}");
            pairs += 1;
        }
    }
    assert!(pairs > 1_000, "only {pairs} pairs");
    // A copy set of port 0 stands after every record, and a shared one before those of ports.
    let mut t = at(5, 4, 23);
    t.copies[0].status = 1 << 9;
    t.word_copies = 1 << 9;
    assert_eq!(told(&t), (4, 5, 108));
    t.ports[4].candidate_spin = 3;
    assert_eq!(told(&t), (3, 4, 26 + 64 + 14));
    t.ports[4].status = 9;
    assert_eq!(told(&t), (2, 4, 26 + 64 + 1));
    t.ports[1].own_spin = 1;
    assert_eq!(told(&t), (3, 1, 26 + 16 + 8));
    t.word.owner = 9;
    assert_eq!(told(&t), (1, 5, 23));
}

#[test]
fn places_of_version_2() {
    let cases: [(Change, Told); 6] = [
        (
            |t, _| t.ports[16].candidate_spin = 1,
            (3, 16, 26 + 256 + 14),
        ),
        (|t, _| t.active = 1 << 17, (1, 17, 14)),
        (|t, _| t.active_copies = 1 << 17, (4, 17, 298)),
        (|t, _| t.word_copies = 1 << 63, (4, 17, 306)),
        (|t, _| t.copies[0].status = 1 << 17, (4, 0, 314)),
        (|t, _| t.copies[16].spin = 1 << 17, (4, 16, 714)),
    ];
    for (change, want) in cases {
        let mut t = at(17, 3, 1);
        change(&mut t, 0);
        assert_eq!(told(&t), want);
    }
    let mut t = at(64, 63, 1);
    t.ports[63].made = 0;
    t.copies[63].spin = 1;
    assert_eq!(told(&t), (4, 63, 2594));
    assert_eq!(image(&t).len(), 2602);
}

#[test]
fn the_table_as_a_whole_comes_first() {
    for d in (0..=u8::MAX).filter(|d| !(1..=64).contains(d)) {
        let mut t = Table::first(d);
        t.word.taken = 2;
        assert_eq!(told(&t), (0, 0, 0));
        assert_eq!(event(&mut t, 0, ENTER), (BAD_TABLE, 0, 0));
        assert_eq!(write(&t, &mut []), (BAD_TABLE, 0));
    }
    for k in 5..ROOM {
        for of_copies in [false, true] {
            let mut t = at(5, 2, 1);
            t.active = u64::MAX;
            if of_copies {
                t.copies[k].go = 1;
            } else {
                t.ports[k].seen_spin = 1;
            }
            assert_eq!(told(&t), (0, 0, 0));
        }
    }
    let mut t = at(5, 2, 1);
    assert_eq!(event(&mut t, 0, ENTER).0, DONE);
}
