//! What document 01 says of every table from a fresh one, looked at in random schedules.

use reference::order::*;
use reference::{event, fresh, good, status, Table, ROOM};

/// A passage's limit in either model.
const LIMIT: u64 = 33;

/// A schedule's next event: mostly one that can be carried out, with crashes and call-offs.
fn choose(random: u64, t: &Table, port: u64) -> u64 {
    match (random % 100, t.ports[port as usize].point) {
        (0, _) => CRASH,
        (1, _) => CALL_OFF,
        (_, 0) => ENTER,
        (_, 11) => LEAVE,
        _ => STEP,
    }
}

#[test]
fn exclusion_good_tables_and_the_passage_limit() {
    let mut seed = 0x2545_F491_4F6C_DD1Du64;
    let mut dearest = (0, 0);
    for d in (1..=17).chain([33, 63, 64]) {
        let (_, mut t) = fresh(d);
        let mut spent = [(0, 0); ROOM];
        for _ in 0..20_000 {
            seed ^= seed << 13;
            seed ^= seed >> 7;
            seed ^= seed << 17;
            let port = (seed >> 40) % d;
            let order = choose(seed >> 20, &t, port);
            let (_, cached, distributed) = event(&mut t, port, order);
            let passage = &mut spent[port as usize];
            if matches!(order, ENTER | CRASH) {
                *passage = (0, 0);
            }
            *passage = (passage.0 + cached, passage.1 + distributed);
            dearest = (dearest.0.max(passage.0), dearest.1.max(passage.1));
            let inside = t.ports.iter().filter(|p| p.status == status::CS).count();
            assert!(inside <= 1);
            assert!(good(&t));
        }
    }
    assert!(dearest.0 <= LIMIT && dearest.1 <= LIMIT, "{dearest:?}");
    assert!(dearest.0 > 25 && dearest.1 > 20, "{dearest:?}");
}
