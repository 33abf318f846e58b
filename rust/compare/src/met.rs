//! Which rules of a good table the tables of a comparison break.

use reference::{bad, fresh, rules, Fault, Rule, Table};
use std::collections::BTreeMap;

/// The number of tables in which a rule decides alone what is bad, by its name and the version of the image: an engine
/// without that rule would answer otherwise.
#[derive(Clone, Debug)]
pub struct Met(BTreeMap<(&'static str, u8), u64>);

/// The rules that an image can break, by name.
pub fn names() -> Vec<&'static str> {
    // Port 0 looks at a later port, and port 1 at an earlier one.
    let (_, mut t) = fresh(2);
    t.ports[0].point = 23;
    t.ports[0].seen_owner = 1;
    t.ports[0].candidate = 1;
    let in_images = rules(&t).into_iter().filter(|rule| rule.fault.kind > 0);
    let mut names: Vec<&str> = in_images.map(|rule| rule.name).collect();
    names.sort_unstable();
    names.dedup();
    names
}

impl Met {
    /// No table so far.
    pub fn new() -> Met {
        let both = names().into_iter().flat_map(|name| [(name, 1), (name, 2)]);
        Met(both.map(|rule| (rule, 0)).collect())
    }

    /// Looks at a table; gives what is bad in it.
    pub fn look(&mut self, t: &Table) -> Option<Fault> {
        let failing: Vec<Rule> = rules(t).into_iter().filter(|rule| !rule.holds).collect();
        let fault = bad(t);
        let mut deciding = failing.iter().filter(|rule| Some(rule.fault) == fault);
        let first = deciding.next();
        assert_eq!(first.is_none(), failing.is_empty(), "{failing:?}");
        if let (Some(rule), None) = (first, deciding.next()) {
            let version = if t.d <= 16 { 1 } else { 2 };
            *self.0.entry((rule.name, version)).or_default() += 1;
        }
        fault
    }

    /// The rules that never decided, with the version.
    pub fn missing(&self) -> Vec<(&'static str, u8)> {
        let never = self.0.iter().filter(|(_, count)| **count == 0);
        never.map(|(rule, _)| *rule).collect()
    }
}

impl Default for Met {
    fn default() -> Met {
        Met::new()
    }
}
