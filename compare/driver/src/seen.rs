//! What a part has met: how often ours answered each number of document 01, 0 for no refusal; and how
//! often its inputs had what they are there for.

use std::collections::{BTreeMap, BTreeSet};

use crate::part::{grouped, Part};

#[derive(Default)]
pub struct Seen(BTreeMap<u8, u64>);

impl Seen {
    pub fn add(&mut self, number: u8) {
        *self.0.entry(number).or_insert(0) += 1;
    }

    /// Prints the counts below the part, which fails if the numbers met are not these.
    pub fn require(&self, part: &mut Part, due: impl IntoIterator<Item = u8>) {
        let numbers: BTreeSet<u8> = self.0.keys().copied().collect();
        part.case(&[], numbers, due.into_iter().collect());
        let counts = self.0.iter();
        let counts = counts.map(|(number, &count)| format!("{number}: {}", grouped(count)));
        part.note(counts.collect::<Vec<_>>().join(", "));
    }
}

/// What an input may have, and whether this one has it.
pub type Situation = (&'static str, bool);

/// How many inputs had each of some situations.
#[derive(Default)]
pub struct Met(Vec<(&'static str, u64)>);

impl Met {
    /// Counts an input. Every input is asked for the same situations, in the same order.
    pub fn add(&mut self, situations: &[Situation]) {
        if self.0.is_empty() {
            self.0 = situations.iter().map(|&(name, _)| (name, 0)).collect();
        }
        for ((_, count), &(_, is_met)) in self.0.iter_mut().zip(situations) {
            *count += u64::from(is_met);
        }
    }

    /// Prints the counts below the part, which fails if one of them is 0, or nothing was asked for.
    pub fn require(&self, part: &mut Part, what: &str) {
        let missing = self.0.iter().filter(|(_, count)| *count == 0);
        let missing: Vec<&str> = missing.map(|&(name, _)| name).collect();
        part.case(&[], (self.0.is_empty(), missing), (false, vec![]));
        let counts = self.0.iter();
        let counts = counts.map(|&(name, count)| format!("{name}: {}", grouped(count)));
        part.note(format!("{what}: {}", counts.collect::<Vec<_>>().join(", ")));
    }
}
