//! What a run counts, so that it can be seen that every outcome occurred.

use crate::reference::Outcome;
use shared::answer::Refusal;
use std::collections::BTreeMap;

#[derive(Clone, Debug, Default)]
pub struct Tally {
    pub calls: u64,
    outcomes: [u64; Outcome::ALL.len()],
    pub halls: u64,
    pub collisions: u64,
    pub stuck: u64,
    pub not_home: u64,
}

impl Tally {
    pub fn count(&mut self, outcome: Outcome) {
        self.calls += 1;
        self.outcomes[outcome as usize] += 1;
    }

    pub fn of(&self, outcome: Outcome) -> u64 {
        self.outcomes[outcome as usize]
    }

    pub fn violations(&self) -> u64 {
        self.collisions + self.stuck + self.not_home
    }

    /// How often each outcome occurred, one line.
    pub fn tell(&self) -> String {
        let counts: Vec<String> = Outcome::ALL
            .iter()
            .filter(|&&outcome| self.of(outcome) > 0)
            .map(|&outcome| format!("{outcome:?} {}", self.of(outcome)))
            .collect();
        counts.join(", ")
    }
}

/// How many calls were refused, for each refusal.
#[derive(Default)]
pub struct Refusals(BTreeMap<Refusal, u64>);

impl Refusals {
    pub fn count(&mut self, refusal: Refusal) {
        *self.0.entry(refusal).or_default() += 1;
    }

    pub fn each<const N: usize>(&self, refusals: [Refusal; N]) -> [u64; N] {
        refusals.map(|refusal| self.0.get(&refusal).copied().unwrap_or(0))
    }
}
