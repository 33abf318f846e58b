//! Every rule of a good table with the field that it is charged to, the last of its fields in the image (request R-2).

use crate::fault::Fault;
use crate::fault::Field::{self, Copies, Port, Shared, Work};
use crate::good::{beyond, good, in_range, room_empty, sound};
use crate::layout::record::*;
use crate::layout::{ACTIVE_PLACE, OWNER_PLACE, TAKEN_PLACE};
use crate::points::{candidate_has, candidate_spin_has, named, own_spin_has, seen_has};
use crate::status;
use crate::table::Table;
use crate::words::{Cell, Words};

/// A rule as it stands in a table.
#[derive(Clone, Copy, Debug)]
pub struct Rule {
    /// What it says.
    pub name: &'static str,
    /// Whether it holds.
    pub holds: bool,
    /// What is bad if it doesn't.
    pub fault: Fault,
}

/// All rules of a table. Where D is out of range there are no others.
pub fn rules(t: &Table) -> Vec<Rule> {
    let whole = |name, holds| Rule {
        name,
        holds,
        fault: Fault::WHOLE,
    };
    let mut all = vec![whole("D 1 to 64", in_range(t))];
    if in_range(t) {
        all.push(whole("room above D is 0", room_empty(t)));
        all.extend(word_rules(t));
    }
    all
}

/// What is bad in a table, if it isn't good: of the rules that fail, the one whose field has the lowest place. Place 0 is
/// lower than that of any field.
pub fn bad(t: &Table) -> Option<Fault> {
    (!good(t)).then(|| lowest(rules(t)))
}

/// The same for the words of ports below D.
pub(crate) fn bad_words(words: &impl Words) -> Option<Fault> {
    (!sound(words)).then(|| lowest(word_rules(words)))
}

fn lowest(rules: Vec<Rule>) -> Fault {
    let failing = rules.into_iter().filter(|rule| !rule.holds);
    let faults = failing.map(|rule| rule.fault);
    let lowest = faults.min_by_key(|fault| fault.place);
    lowest.expect("a table that isn't good breaks a rule")
}

/// The rules for the words of ports below D.
fn word_rules(words: &impl Words) -> Vec<Rule> {
    let d = words.d();
    let mut all = Vec::new();
    let mut rule = |name, holds, field: Field| {
        let fault = field.fault(d);
        all.push(Rule { name, holds, fault });
    };
    shared_rules(words, &mut rule);
    for k in 0..d {
        port_rules(words, k, &mut rule);
        seen_rules(words, k, &mut rule);
        candidate_rules(words, k, &mut rule);
    }
    copy_rules(words, &mut rule);
    all
}

/// ACTIVE and the word.
fn shared_rules(words: &impl Words, rule: &mut impl FnMut(&'static str, bool, Field)) {
    let d = words.d();
    let (active, word) = (words.active(), words.word());
    let owner = word.owner as usize;
    let within = active & beyond(d) == 0;
    rule("ACTIVE within D", within, Shared(ACTIVE_PLACE));
    rule("taken 0 or 1", word.taken <= 1, Shared(TAKEN_PLACE));
    rule("owner below D", owner < d, Shared(OWNER_PLACE));
    if owner < d {
        let at_most = word.spin <= words.port(owner).made;
        rule("spin at most made", at_most, Port(owner, MADE));
    }
}

/// What speaks of port `k` alone, and of its bit in ACTIVE.
fn port_rules(words: &impl Words, k: usize, rule: &mut impl FnMut(&'static str, bool, Field)) {
    let p = words.port(k);
    let bit = words.active() >> k & 1 == 1;
    rule("point named", named(p.point), Port(k, POINT));
    rule("bit clear at 6", p.point != 6 || !bit, Port(k, POINT));
    rule("bit set at 15", p.point != 15 || bit, Port(k, POINT));
    rule("STATUS named", p.status <= status::ABORT, Port(k, STATUS));
    rule("flag 0 or 1", p.flag <= 1, Port(k, FLAG));
    rule("flag 0 at 0", p.point != 0 || p.flag == 0, Port(k, FLAG));
    rule("value 0 or 1", p.value <= 1, Port(k, VALUE));
    let none = p.made != 0 || p.value == 0;
    rule("made 0 with value 0", none, Port(k, MADE));
    rule("GO at most made", p.go <= p.made, Port(k, GO));
    let own = Work(k, OWN_SPIN);
    let has = own_spin_has(p.point);
    rule("own spin at most made", p.own_spin <= p.made, own);
    rule("own spin in place", has || p.own_spin == 0, own);
}

/// Seen owner `j` and seen spin. Made of a port whose record comes later stands after them.
fn seen_rules(words: &impl Words, k: usize, rule: &mut impl FnMut(&'static str, bool, Field)) {
    let (d, p) = (words.d(), words.port(k));
    let (j, spin) = (p.seen_owner as usize, p.seen_spin);
    let (owner_field, spin_field) = (Work(k, SEEN_OWNER), Work(k, SEEN_SPIN));
    let has = seen_has(p.point);
    let marks = matches!(p.point, 25 | 35 | 45);
    rule("seen owner below D", j < d, owner_field);
    rule("seen owner in place", has || j == 0, owner_field);
    rule("seen spin in place", has || spin == 0, spin_field);
    rule("seen spin above 0 at x5", !marks || spin > 0, spin_field);
    if j < d {
        let at_most = spin <= words.port(j).made;
        if j > k {
            rule("seen spin at most later made", at_most, Port(j, MADE));
        } else {
            rule("seen spin at most made", at_most, spin_field);
        }
    }
}

/// Candidate `j` and candidate spin, in the same way.
fn candidate_rules(words: &impl Words, k: usize, rule: &mut impl FnMut(&'static str, bool, Field)) {
    let (d, p) = (words.d(), words.port(k));
    let (j, spin) = (p.candidate as usize, p.candidate_spin);
    let (port_field, spin_field) = (Work(k, CANDIDATE), Work(k, CANDIDATE_SPIN));
    let (has, has_spin) = (candidate_has(p.point), candidate_spin_has(p.point));
    rule("candidate below D", j < d, port_field);
    rule("candidate in place", has || j == 0, port_field);
    rule("candidate spin in place", has_spin || spin == 0, spin_field);
    if j < d {
        let at_most = spin <= words.port(j).made;
        if j > k {
            rule("candidate spin at most later made", at_most, Port(j, MADE));
        } else {
            rule("candidate spin at most made", at_most, spin_field);
        }
    }
}

/// Copy sets.
fn copy_rules(words: &impl Words, rule: &mut impl FnMut(&'static str, bool, Field)) {
    let above = beyond(words.d());
    let mut within = |name, cell| rule(name, words.copies(cell) & above == 0, Copies(cell));
    within("copies of ACTIVE within D", Cell::Active);
    within("copies of the word within D", Cell::Word);
    for k in 0..words.d() {
        within("copies of STATUS within D", Cell::Status(k));
        within("copies of GO within D", Cell::Go(k));
        within("copies of the spin within D", Cell::Spin(k));
    }
    for k in 0..words.d() {
        let spin = Cell::Spin(k);
        let none = words.port(k).made != 0 || words.copies(spin) == 0;
        rule("made 0 without copies", none, Copies(spin));
    }
}
