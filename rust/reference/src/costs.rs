//! Remote references: what a step costs in both models, and who has a current copy after it.

use crate::points::{touch, Kind, Object};
use crate::table::Port;
use crate::words::{Cell, WordsMut};

/// The cached and the distributed cost of the step that port `k`, which is `p`, is about to make. Copy sets become those
/// after it.
pub(crate) fn charge(words: &mut impl WordsMut, k: usize, p: &Port) -> (u64, u64) {
    let Some((object, kind)) = touch(p.point) else {
        return (0, 0);
    };
    let seen = p.seen_owner as usize;
    let candidate = p.candidate as usize;
    // The touched word, none for a spin that isn't the latest; and the port it is local to.
    let (cell, home) = match object {
        Object::Active => (Some(Cell::Active), None),
        Object::Word => (Some(Cell::Word), None),
        Object::Status => (Some(Cell::Status(k)), Some(k)),
        Object::Go => (Some(Cell::Go(k)), Some(k)),
        Object::OwnSpin => (p.latest(p.own_spin).then_some(Cell::Spin(k)), Some(k)),
        Object::CandidateGo => (Some(Cell::Go(candidate)), Some(candidate)),
        Object::SeenSpin => (
            words
                .port(seen)
                .latest(p.seen_spin)
                .then_some(Cell::Spin(seen)),
            Some(seen),
        ),
    };
    let distributed = u64::from(home != Some(k));
    let Some(cell) = cell else {
        return (1, distributed);
    };
    let bit = 1u64 << k;
    let cached = match kind {
        Kind::Read => words.renew(cell, |copies| copies | bit) & bit == 0,
        Kind::Write | Kind::Add | Kind::Swap => {
            words.renew(cell, |_| bit);
            true
        }
    };
    (u64::from(cached), distributed)
}
