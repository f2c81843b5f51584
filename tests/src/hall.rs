//! One hall whose calls are made twice, of the reference and of the entry under test, and compared.

use crate::lent::{Lent, LentField};
use crate::plan::Plan;
use crate::reference::Reference;
use crate::tally::Tally;
use shared::answer::Answer;
use shared::call::{Entry, EventNumbers};
use shared::memory::{MOST_LEFT, PER_SHUTTLE, PLACES};
use shared::random::Random;
use std::fmt::Debug;

/// What differs, in words.
pub type Difference = String;

/// The reference, the entry that is compared with it, and what was counted.
pub struct Pair<'a> {
    pub reference: Reference,
    pub entry: &'a mut dyn Entry,
    pub tally: Tally,
}

impl<'a> Pair<'a> {
    pub fn new(entry: &'a mut dyn Entry, seed: u64) -> Pair<'a> {
        Pair { reference: Reference::new(Random::new(seed)), entry, tally: Tally::default() }
    }
}

pub struct Hall {
    pub plan: Plan,
    field: LentField,
    memory: Lent<u16>,
    route: Lent<u16>,
    expected: Vec<u16>,
}

impl Hall {
    pub fn new(plan: Plan, memory: Vec<u16>) -> Hall {
        Hall {
            field: LentField::new(&plan),
            memory: Lent::new(&memory, 0xeee2),
            route: Lent::new(&[], 0xeee3),
            plan,
            expected: memory,
        }
    }

    /// Memory with a number in every place that no square of a field has.
    pub fn blank(plan: Plan) -> Hall {
        let memory = vec![u16::MAX; PER_SHUTTLE * plan.bays.len()];
        Hall::new(plan, memory)
    }

    pub fn started(plan: Plan, pair: &mut Pair) -> Result<Hall, Difference> {
        let mut hall = Hall::blank(plan);
        match hall.start(pair)? {
            Ok(()) => Ok(hall),
            Err(refusal) => Err(format!("both refuse to start: {refusal:?}\n{}", hall.picture())),
        }
    }

    pub fn memory(&self) -> &[u16] {
        &self.expected
    }

    /// Puts this memory in place of what the calls so far have left.
    pub fn set_memory(&mut self, memory: Vec<u16>) {
        self.memory.set(&memory);
        self.expected = memory;
    }

    pub fn happen(&mut self, pair: &mut Pair, event: EventNumbers) -> Result<Answer<bool>, Difference> {
        self.route.set(event.route);
        let outcome = pair.reference.outcome(self.plan.numbers(), &mut self.expected, event);
        let lent = EventNumbers { route: self.route.content(), ..event };
        let answer = pair.entry.happen(self.field.numbers(&self.plan), self.memory.content_mut(), lent);
        pair.tally.count(outcome);
        let call = |fault: String| format!("event {}, which is {outcome:?}: {fault}", tell_event(event));
        self.compare(answer, outcome.answer(), event.route).map_err(call)
    }

    pub fn start(&mut self, pair: &mut Pair) -> Result<Answer<()>, Difference> {
        self.route.set(&[]);
        let should = pair.reference.start(self.plan.numbers(), &mut self.expected);
        let answer = pair.entry.start(self.field.numbers(&self.plan), self.memory.content_mut());
        pair.tally.calls += 1;
        self.compare(answer, should, &[]).map_err(|fault| format!("start: {fault}"))
    }

    fn compare<T: Debug + PartialEq>(
        &self,
        answer: Answer<T>,
        should: Answer<T>,
        route: &[u16],
    ) -> Result<Answer<T>, Difference> {
        let fault = wrong_answer(&answer, &should)
            .or_else(|| self.memory.fault("memory", &self.expected))
            .or_else(|| self.field.fault(&self.plan))
            .or_else(|| self.route.fault("the route", route));
        match fault {
            Some(fault) => Err(format!("{fault}\nafter it should be:\n{}", self.picture())),
            None => Ok(answer),
        }
    }

    /// The field and the shuttles in full, to be read by somebody who looks for the fault.
    pub fn picture(&self) -> String {
        let shuttles: Vec<String> = self.expected.chunks(PER_SHUTTLE).map(tell_shuttle).collect();
        format!("{}\n{}", self.plan, shuttles.join("\n"))
    }
}

pub fn wrong_answer<T: Debug + PartialEq>(answer: &Answer<T>, should: &Answer<T>) -> Option<Difference> {
    (answer != should).then(|| format!("the answer is {answer:?}, should be {should:?}"))
}

fn tell_event(event: EventNumbers) -> String {
    let first: Vec<&u16> = event.route.iter().take(16).collect();
    format!("{} of shuttle {} with {} squares {first:?}", event.kind, event.shuttle, event.route.len())
}

fn tell_shuttle(part: &[u16]) -> String {
    match part {
        [square, mark, behind, length, ..] => {
            let end = (PLACES + usize::from(*length).min(MOST_LEFT)).min(part.len());
            format!("on {square}, mark {mark}, behind {behind}, {length} left: {:?}", &part[PLACES..end])
        }
        _ => format!("{part:?}"),
    }
}
