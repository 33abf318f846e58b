//! The comparison of what is bad: an engine that misread request R-2, or that leaves a rule out, is noticed, whatever the rule.

use compare::{generate, harness, met, Engine, Random, Reference};
use reference::number::{BAD_IMAGE, DONE};
use reference::{bad, image, rules, table, Fault, Rule, Table, ROOM};

/// Enough tables for every rule to decide alone.
const TABLES: u64 = 4_000;
const SEED: u64 = 3;

/// The reference with another opinion of what is bad in a table.
struct Judges<F>(F);

impl<F: Fn(&Table) -> Option<Fault>> Engine for Judges<F> {
    fn fresh(&self, d: u64, room: &mut [u8]) -> u64 {
        Reference.fresh(d, room)
    }

    fn check(&self, image: &[u8]) -> u64 {
        match table(image) {
            Some(t) => self.0(&t).map_or(DONE, Fault::answer),
            None => BAD_IMAGE,
        }
    }

    fn event(&self, image: &mut [u8], port: u64, event: u64) -> u64 {
        match self.check(image) {
            DONE => Reference.event(image, port, event),
            refusal => refusal,
        }
    }

    fn event_into(&self, image: &[u8], next: &mut [u8], port: u64, event: u64) -> u64 {
        match self.check(image) {
            DONE => Reference.event_into(image, next, port, event),
            refusal => refusal,
        }
    }

    fn run(&self, image: &mut [u8], orders: &[u64], answers: &mut [u64]) -> u64 {
        match self.check(image) {
            DONE => Reference.run(image, orders, answers),
            refusal => refusal,
        }
    }
}

/// The rules that fail.
fn failing(t: &Table) -> Vec<Rule> {
    rules(t).into_iter().filter(|rule| !rule.holds).collect()
}

/// The lowest place of rules that fail, each charged as a change has it.
fn lowest(t: &Table, charged: impl Fn(&Table, &Rule) -> Fault) -> Option<Fault> {
    let faults = failing(t).into_iter().map(|rule| charged(t, &rule));
    faults.min_by_key(|fault| fault.place)
}

/// Another field of a port, or another place, for the rules of a name.
fn moved(t: &Table, name: &str, kind: u64, by: u64) -> Option<Fault> {
    lowest(t, |_, rule| {
        let place = rule.fault.place - by;
        let fault = rule.fault;
        if rule.name == name {
            Fault {
                kind,
                place,
                ..fault
            }
        } else {
            fault
        }
    })
}

/// What is bad, by an engine that misread request R-2.
type Judge = fn(&Table) -> Option<Fault>;

/// Misreadings, each with a name.
const MISREAD: [(&str, Judge); 12] = [
    ("the lowest kind", |t| {
        failing(t)
            .into_iter()
            .map(|rule| rule.fault)
            .min_by_key(|fault| (fault.kind, fault.place))
    }),
    ("the lowest port", |t| {
        failing(t)
            .into_iter()
            .map(|rule| rule.fault)
            .min_by_key(|fault| (fault.port, fault.place))
    }),
    ("the last rule that fails", |t| {
        failing(t).last().map(|rule| rule.fault)
    }),
    ("the first rule that fails", |t| {
        failing(t).first().map(|rule| rule.fault)
    }),
    ("port 0 for what all share", |t| {
        let d = u64::from(t.d);
        bad(t).map(|fault| Fault {
            port: fault.port % d,
            ..fault
        })
    }),
    ("places of the other version", |t| {
        lowest(t, |t, rule| {
            let sets = 26 + 16 * u64::from(t.d);
            let fault = rule.fault;
            match fault.place.checked_sub(sets) {
                Some(far) if t.d <= 16 => Fault {
                    place: sets + 4 * far,
                    ..fault
                },
                Some(far) => Fault {
                    place: sets + far / 4,
                    ..fault
                },
                None => fault,
            }
        })
    }),
    ("the word's spin at the word", |t| {
        lowest(t, |t, rule| match rule.name {
            "spin at most made" => Fault {
                kind: 1,
                port: t.d.into(),
                place: 24,
            },
            _ => rule.fault,
        })
    }),
    ("a spin of a later port at the spin", |t| {
        lowest(t, |t, rule| {
            let j = rule.fault.port;
            let above = |k: &usize| {
                let p = t.ports[*k];
                u64::from(p.seen_owner) == j && p.seen_spin > t.ports[j as usize].made
            };
            match (rule.name, (0..j as usize).find(above)) {
                ("seen spin at most later made", Some(k)) => Fault {
                    kind: 3,
                    port: k as u64,
                    place: 26 + 16 * k as u64 + 11,
                },
                _ => rule.fault,
            }
        })
    }),
    ("flag at point 0 at the point", |t| {
        moved(t, "flag 0 at 0", 2, 2)
    }),
    ("made 0 with a value at the value", |t| {
        moved(t, "made 0 with value 0", 2, 1)
    }),
    ("own spin above made at made", |t| {
        moved(t, "own spin at most made", 2, 4)
    }),
    ("working values are the port's fields", |t| {
        bad(t).map(|fault| match fault.kind {
            3 => Fault { kind: 2, ..fault },
            _ => fault,
        })
    }),
];

/// A difference in answers was told.
fn noticed(name: &str, told: Result<u64, harness::Difference>) {
    let difference = told.is_err_and(|why| why.contains(": answer "));
    assert!(difference, "not noticed: {name}");
}

#[test]
fn every_misreading_of_what_is_bad_is_noticed() {
    harness::bad_tables(&Judges(bad), SEED, TABLES).unwrap();
    for (name, judge) in MISREAD {
        let told = harness::bad_tables(&Judges(judge), SEED, TABLES);
        noticed(name, told);
    }
}

#[test]
fn every_rule_that_is_left_out_is_noticed() {
    for name in met::names() {
        let without = |t: &Table| {
            let others = failing(t).into_iter().filter(|rule| rule.name != name);
            others
                .map(|rule| rule.fault)
                .min_by_key(|fault| fault.place)
        };
        let told = harness::bad_tables(&Judges(without), SEED, TABLES);
        noticed(name, told);
    }
}

#[test]
fn bad_tables_are_of_every_kind_and_port() {
    let mut random = Random::new(SEED);
    let mut met = met::Met::new();
    let mut kinds = [[0; 5]; 2];
    let mut ports = [0; ROOM + 1];
    for _ in 0..20_000 {
        let d = generate::size(&mut random);
        let t = generate::bad_table(&mut random, d);
        assert_eq!(table(&image(&t)), Some(t));
        if let Some(fault) = met.look(&t) {
            kinds[usize::from(d > 16)][fault.kind as usize] += 1;
            ports[fault.port as usize] += 1;
        }
    }
    assert_eq!(met.missing(), []);
    assert!(ports.iter().all(|count| *count > 20), "{ports:?}");
    for of_version in kinds {
        // No image has 1.0.
        assert_eq!(of_version[0], 0);
        assert!(
            of_version[1..].iter().all(|count| *count > 500),
            "{kinds:?}"
        );
    }
}
