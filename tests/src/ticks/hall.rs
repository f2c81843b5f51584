//! One hall whose ticks are made twice.

use super::{Pair, Tally};
use crate::hall::{Difference, wrong_answer};
use crate::lent::{Lent, LentField};
use crate::plan::Plan;
use shared::answer::Answer;
use shared::call::{Entry, EventNumbers, ORDER, Ticks, TurnNumbers};
use shared::memory::{LENGTH, MARK, PER_SHUTTLE, SQUARE, part_of};

pub struct Hall {
    pub plan: Plan,
    field: LentField,
    lent_memory: Lent<u16>,
    lent_waits: Lent<u64>,
    marks: Lent<u8>,
    /// What memory and waits should be.
    pub memory: Vec<u16>,
    pub waits: Vec<u64>,
}

impl Hall {
    pub fn new(plan: Plan, memory: Vec<u16>, waits: Vec<u64>) -> Hall {
        Hall {
            field: LentField::new(&plan),
            lent_memory: Lent::new(&memory, 0xeee2),
            lent_waits: Lent::new(&waits, 0xeeee_eeee_eeee_eee3),
            marks: Lent::new(&[], 0xed),
            plan,
            memory,
            waits,
        }
    }

    /// Every shuttle in its bay with nothing left.
    pub fn started(plan: Plan, pair: &mut Pair) -> Hall {
        let count = plan.bays.len();
        let mut memory = vec![u16::MAX; PER_SHUTTLE * count];
        pair.reference.start(plan.numbers(), &mut memory).expect("random plans are fields");
        Hall::new(plan, memory, vec![0; count])
    }

    /// Gives an order by the reference. Says whether it was taken.
    pub fn order(&mut self, pair: &mut Pair, shuttle: usize, route: &[u16]) -> bool {
        let event = EventNumbers { kind: ORDER, shuttle: shuttle as u64, route };
        pair.reference.happen(self.plan.numbers(), &mut self.memory, event) == Ok(true)
    }

    pub fn tick(&mut self, pair: &mut Pair, due: &[u8]) -> Result<Answer<Option<usize>>, Difference> {
        self.lent_memory.set(&self.memory);
        self.lent_waits.set(&self.waits);
        self.marks.set(due);
        let before = self.waits.clone();
        let turns = TurnNumbers { waits: &mut self.waits, due };
        let should = pair.reference.tick(self.plan.numbers(), &mut self.memory, turns);
        let turns = TurnNumbers { waits: self.lent_waits.content_mut(), due: self.marks.content() };
        let answer = pair.entry.tick(self.field.numbers(&self.plan), self.lent_memory.content_mut(), turns);
        pair.tally.count(should);
        if let Ok(Some(i)) = should {
            self.count_others(&mut pair.tally, i, before[i]);
        }
        let fault = wrong_answer(&answer, &should)
            .or_else(|| self.lent_memory.fault("memory", &self.memory))
            .or_else(|| self.lent_waits.fault("waits", &self.waits))
            .or_else(|| self.marks.fault("marks", due))
            .or_else(|| self.field.fault(&self.plan));
        match fault {
            Some(fault) => Err(format!("{fault}, {should:?}, due {due:?}\nafter it should be:\n{}", self.told())),
            None => Ok(answer),
        }
    }

    /// How long others have waited beside the one that is granted, which had waited so long before the tick.
    fn count_others(&self, tally: &mut Tally, granted: usize, before: u64) {
        let others = || (0..self.waits.len()).filter(|&i| i != granted).map(|i| self.waits[i]);
        tally.passed_over += u64::from(others().any(|wait| wait > before + 1));
        tally.equals += u64::from(others().any(|wait| wait == before + 1));
    }

    pub fn is_idle(&self, shuttle: usize) -> bool {
        let part = part_of(&self.memory, shuttle);
        part[MARK] == 0 && part[LENGTH] == 0
    }

    pub fn all_home(&self) -> bool {
        (0..self.plan.bays.len()).all(|i| self.is_idle(i) && part_of(&self.memory, i)[SQUARE] == self.plan.bays[i])
    }

    fn told(&self) -> String {
        let shuttle = |part: &[u16]| format!("{:?}", &part[..part.len().min(12)]);
        let shuttles: Vec<String> = self.memory.chunks(PER_SHUTTLE).map(shuttle).collect();
        format!("{}\n{}\nwaits {:?}", self.plan, shuttles.join("\n"), self.waits)
    }
}
