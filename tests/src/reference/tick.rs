//! Ticks: the arrivals that are due, then at most one step, of the one that has waited longest.

use super::field::Field;
use super::fleet;
use super::{Outcome, Reference};
use shared::answer::{Answer, Refusal};
use shared::call::{ARRIVE, EventNumbers, FieldNumbers, STEP, Ticks, TurnNumbers};
use std::cmp::Reverse;

impl Ticks for Reference {
    fn tick(&mut self, numbers: FieldNumbers, memory: &mut [u16], turns: TurnNumbers) -> Answer<Option<usize>> {
        let TurnNumbers { waits, due } = turns;
        let field = Field::read(numbers).ok_or(Refusal::Field)?;
        fleet::read(&field, memory).ok_or(Refusal::Memory)?;
        let count = field.bays.len();
        let marks_fit = due.len() == count && due.iter().all(|&mark| mark <= 1);
        if !marks_fit || waits.len() != count || waits.contains(&u64::MAX) {
            return Err(Refusal::Turns);
        }
        for i in (0..count).filter(|&i| due[i] == 1) {
            self.event(numbers, memory, ARRIVE, i);
        }
        count_waits(&field, memory, waits);
        let granted = (0..count).filter(|&i| self.would_grant(numbers, memory, i));
        let whose = granted.max_by_key(|&i| (waits[i], Reverse(i)));
        if let Some(whose) = whose {
            self.event(numbers, memory, STEP, whose);
            waits[whose] = 0;
        }
        Ok(whose)
    }
}

impl Reference {
    fn event(&mut self, numbers: FieldNumbers, memory: &mut [u16], kind: u64, shuttle: usize) -> Outcome {
        self.outcome(numbers, memory, EventNumbers { kind, shuttle: shuttle as u64, route: &[] })
    }

    fn would_grant(&mut self, numbers: FieldNumbers, memory: &[u16], shuttle: usize) -> bool {
        self.event(numbers, &mut memory.to_vec(), STEP, shuttle) == Outcome::Granted
    }
}

/// A shuttle that stands with something left has waited one more, every other one not at all.
fn count_waits(field: &Field, memory: &[u16], waits: &mut [u64]) {
    let fleet = fleet::read(field, memory).expect("what arrivals leave is acceptable memory");
    for (shuttle, wait) in fleet.iter().zip(waits) {
        *wait = if !shuttle.moves && !shuttle.left.is_empty() { *wait + 1 } else { 0 };
    }
}
