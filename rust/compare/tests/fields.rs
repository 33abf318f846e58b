//! The crate's table of fields beside the reference's tables: every name at its place, every value, and what is said of a
//! field that is bad. Without YARVELOW_LIB there is no archive and nothing is looked at.

#![cfg(archive)]

use compare::generate::{bad_table, good_table, size};
use compare::Random;
use reference::{bad, image, Table};
use yarvelow::{check, fields, image_length, Field, Kind, Refusal, PORTS};

/// What a table has for a field.
fn value(t: &Table, field: &Field) -> u64 {
    let k = usize::from(field.port.unwrap_or(0));
    let (word, port, copies) = (&t.word, &t.ports[k], &t.copies[k]);
    match field.name {
        "ACTIVE" => t.active,
        "taken" => word.taken.into(),
        "owner" => word.owner.into(),
        "spin" => word.spin.into(),
        "point" => port.point.into(),
        "STATUS" => port.status.into(),
        "flag" => port.flag.into(),
        "latest value" => port.value.into(),
        "made" => port.made.into(),
        "GO" => port.go.into(),
        "own spin" => port.own_spin.into(),
        "seen owner" => port.seen_owner.into(),
        "seen spin" => port.seen_spin.into(),
        "candidate" => port.candidate.into(),
        "candidate spin" => port.candidate_spin.into(),
        "copy set of ACTIVE" => t.active_copies,
        "copy set of the word" => t.word_copies,
        "copy set of STATUS" => copies.status,
        "copy set of GO" => copies.go,
        "copy set of the latest spin" => copies.spin,
        name => panic!("{name}"),
    }
}

#[test]
fn every_name_is_at_its_place() {
    let mut random = Random::new(6);
    for _ in 0..2_000 {
        let d = size(&mut random);
        let t = good_table(&mut random, d);
        let bytes = image(&t);
        for field in fields(d as usize) {
            assert_eq!(field.value(&bytes), value(&t, &field), "{field:?}");
        }
    }
    for d in 1..=PORTS {
        let end = fields(d).fold(14, |place, field| {
            assert_eq!(field.place, place);
            place + field.width
        });
        assert_eq!(end, image_length(d));
    }
}

#[test]
fn what_is_bad_is_a_field() {
    let mut random = Random::new(7);
    for _ in 0..4_000 {
        let d = size(&mut random);
        let t = bad_table(&mut random, d);
        let Some(fault) = bad(&t) else {
            continue;
        };
        let refusal = check(&image(&t)).unwrap_err();
        let Refusal::BadTable { kind, port, place } = refusal else {
            panic!("{refusal}");
        };
        let answer = (kind.number().into(), port.into(), place.into());
        assert_eq!(answer, (fault.kind, fault.port, fault.place));
        let field = fields(d as usize).find(|field| field.place == place.into());
        let field = field.expect("a field there");
        let of = field.port.unwrap_or(d as u8);
        assert_eq!((field.kind, of), (kind, port));
        // The answer alone tells all but which of two copy sets it is, at some places above 16 ports.
        let told = refusal.to_string();
        let whole = format!("1.{} BAD TABLE: {}", fault.kind, field.told("bad"));
        assert!(told.contains(field.name), "{told}: {field:?}");
        let go = field.name == "copy set of GO";
        let sure = d <= 16 || kind != Kind::Copies || field.port.is_none() || go;
        assert!(told == whole || !sure, "{told}, not {whole}");
    }
}
