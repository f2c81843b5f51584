//! What the program keeps for ticks: how long each shuttle has waited, and how many ticks ago it made its step.

use crate::plan::Plan;
use crate::reference::Reference;
use shared::call::{Ticks, TurnNumbers};

pub struct Turns {
    waits: Vec<u64>,
    ages: Vec<usize>,
}

impl Turns {
    pub fn new(shuttles: usize) -> Turns {
        Turns { waits: vec![0; shuttles], ages: vec![0; shuttles] }
    }

    /// A step was granted just now, by hand or in a tick.
    pub fn stepped(&mut self, shuttle: usize) {
        self.ages[shuttle] = 0;
    }

    /// One tick, in which each arrival is due that many ticks after its step. Answers whose step was granted.
    pub fn tick(&mut self, reference: &mut Reference, plan: &Plan, memory: &mut [u16], after: usize) -> Option<usize> {
        self.ages.iter_mut().for_each(|age| *age += 1);
        let due: Vec<u8> = self.ages.iter().map(|&age| u8::from(age >= after)).collect();
        let turns = TurnNumbers { waits: &mut self.waits, due: &due };
        let granted = reference.tick(plan.numbers(), memory, turns);
        granted.expect("a tick of the program is never refused").inspect(|&shuttle| self.stepped(shuttle))
    }
}
