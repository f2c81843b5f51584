//! Ticks by another algorithm than the reference's: those that may step are asked in the order in which they have
//! waited. Without a fault it must agree with the reference in everything.

use super::copy::RulesCopy;
use super::{Fault, refuse};
use shared::answer::{Answer, Refusal};
use shared::call::{FieldNumbers, Ticks, TurnNumbers};
use shared::function::{Function, Tick};
use shared::memory::{LENGTH, MARK, PER_SHUTTLE};
use std::cmp::Reverse;

faults! {
    TickFault {
        NewestFirst: "the one that has waited shortest comes first",
        HighestOfEquals: "of equals the highest comes first",
        LowestFirst: "the lowest comes first however long others have waited",
        LongestOnly: "only the one that has waited longest is asked",
        ArrivalsNotDue: "arrivals are made that are not due",
        ArrivalNotDue: "the first one's arrival is made though it is not due",
        NoArrivals: "arrivals that are due are not made",
        OneArrival: "only the first arrival that is due is made",
        ArrivalOfStanding: "an arrival of a shuttle that stands writes the square behind",
        ArrivalsLast: "the arrivals are made after the step",
        TwoSteps: "two steps are granted in a tick",
        NoSteps: "no step is ever granted",
        NextSquareOnly: "a step is granted without asking whether all are safe",
        WaitKept: "the wait of the one that is granted stays",
        WaitsOfOthersCleared: "a grant clears all waits",
        CountedBeforeArrivals: "waits are counted before the arrivals",
        CountedWhileMoving: "a shuttle that moves waits too",
        CountedWithNothingLeft: "a shuttle that stands with nothing left waits too",
        CountedIfGranted: "only those wait whose steps would be granted",
        MovingKeepWaits: "a shuttle that moves keeps its wait",
        AnswerNotShifted: "the shuttle is answered in the low bits",
        NobodyChangesNothing: "nothing changes if nobody's step is granted",
        MostWaitAccepted: "a wait that can't count on is accepted",
        LargeWaitRefused: "a wait that can count on once is refused",
        MarkTwo: "a mark of 2 is accepted",
        MoreWaits: "more waits than shuttles are accepted",
        MoreMarks: "more marks than shuttles are accepted",
        FewerMarks: "fewer marks than shuttles are accepted",
        TurnsBeforeMemory: "waits and marks are checked before memory",
        ArrivalsIfRefused: "arrivals are made though waits or marks are refused",
    }
}

pub struct TickCopy {
    pub fault: Option<TickFault>,
}

impl Ticks for TickCopy {
    fn tick(&mut self, field: FieldNumbers, memory: &mut [u16], turns: TurnNumbers) -> Answer<Option<usize>> {
        let TurnNumbers { waits, due } = turns;
        if let Err(refusal) = self.check(field, memory, waits, due) {
            if self.has(TickFault::ArrivalsIfRefused) && refusal == Refusal::Turns {
                self.arrivals(memory, due);
            }
            return Err(refusal);
        }
        let before = (memory.to_vec(), waits.to_vec());
        if self.has(TickFault::CountedBeforeArrivals) {
            self.count(field, memory, waits);
        }
        if !self.has(TickFault::ArrivalsLast) {
            self.arrivals(memory, due);
        }
        if !self.has(TickFault::CountedBeforeArrivals) {
            self.count(field, memory, waits);
        }
        let whose = self.choose(field, memory, waits);
        for &i in &whose {
            self.step(field, memory, i);
            self.clear_waits(waits, i);
        }
        if self.has(TickFault::ArrivalsLast) {
            self.arrivals(memory, due);
        }
        if whose.is_empty() && self.has(TickFault::NobodyChangesNothing) {
            memory.copy_from_slice(&before.0);
            waits.copy_from_slice(&before.1);
        }
        match whose.first() {
            Some(&i) if self.has(TickFault::AnswerNotShifted) => Tick::answer(i as u64),
            first => Ok(first.copied()),
        }
    }
}

impl TickCopy {
    fn has(&self, fault: TickFault) -> bool {
        self.fault == Some(fault)
    }

    fn check(&self, field: FieldNumbers, memory: &[u16], waits: &[u64], due: &[u8]) -> Answer<()> {
        let rules = RulesCopy { fault: None };
        let order = if self.has(TickFault::TurnsBeforeMemory) {
            [Refusal::Field, Refusal::Turns, Refusal::Memory]
        } else {
            [Refusal::Field, Refusal::Memory, Refusal::Turns]
        };
        refuse(order, |refusal| match refusal {
            Refusal::Field => rules.field_fits(field),
            Refusal::Memory => rules.memory_fits(field, memory),
            _ => self.turns_fit(field.bays.len(), waits, due),
        })
    }

    fn turns_fit(&self, count: usize, waits: &[u64], due: &[u8]) -> bool {
        let most_wait = match self.fault {
            Some(TickFault::MostWaitAccepted) => u64::MAX,
            Some(TickFault::LargeWaitRefused) => u64::MAX - 2,
            _ => u64::MAX - 1,
        };
        let most_mark = if self.has(TickFault::MarkTwo) { 2 } else { 1 };
        let waits_fit = waits.len() == count || (waits.len() > count && self.has(TickFault::MoreWaits));
        let marks_fit = match due.len() {
            fewer if fewer < count => self.has(TickFault::FewerMarks),
            more if more > count => self.has(TickFault::MoreMarks),
            _ => true,
        };
        waits_fit
            && marks_fit
            && waits.iter().all(|&wait| wait <= most_wait)
            && due.iter().all(|&mark| mark <= most_mark)
    }

    fn arrivals(&self, memory: &mut [u16], due: &[u8]) {
        if self.has(TickFault::NoArrivals) {
            return;
        }
        let rules = RulesCopy { fault: self.has(TickFault::ArrivalOfStanding).then_some(Fault::ArrivalOfStanding) };
        let mut made = 0;
        for (i, part) in memory.chunks_exact_mut(PER_SHUTTLE).enumerate() {
            let also = self.has(TickFault::ArrivalsNotDue) || (i == 0 && self.has(TickFault::ArrivalNotDue));
            let is_due = due.get(i).is_some_and(|&mark| mark > 0);
            if (is_due || also) && !(made > 0 && self.has(TickFault::OneArrival)) {
                made += u64::from(rules.arrive(part));
            }
        }
    }

    fn count(&self, field: FieldNumbers, memory: &[u16], waits: &mut [u64]) {
        for (i, part) in memory.chunks_exact(PER_SHUTTLE).enumerate() {
            let moves = part[MARK] == 1;
            let has_left = part[LENGTH] > 0 || self.has(TickFault::CountedWithNothingLeft);
            let stands = !moves || self.has(TickFault::CountedWhileMoving);
            let granted = !self.has(TickFault::CountedIfGranted) || self.would_grant(field, memory, i);
            if stands && has_left && granted {
                waits[i] = waits[i].saturating_add(1);
            } else if !(moves && self.has(TickFault::MovingKeepWaits)) {
                waits[i] = 0;
            }
        }
    }

    fn clear_waits(&self, waits: &mut [u64], granted: usize) {
        if self.has(TickFault::WaitsOfOthersCleared) {
            waits.fill(0);
        } else if !self.has(TickFault::WaitKept) {
            waits[granted] = 0;
        }
    }

    /// Those whose steps are to be granted, of which there is at most one unless a fault makes them two.
    fn choose(&self, field: FieldNumbers, memory: &[u16], waits: &[u64]) -> Vec<usize> {
        let mut order: Vec<usize> = (0..field.bays.len()).collect();
        match self.fault {
            Some(TickFault::NewestFirst) => order.sort_by_key(|&i| waits[i]),
            Some(TickFault::HighestOfEquals) => order.sort_by_key(|&i| Reverse((waits[i], i))),
            Some(TickFault::LowestFirst) => {}
            _ => order.sort_by_key(|&i| Reverse(waits[i])),
        }
        if self.has(TickFault::LongestOnly) {
            order.truncate(1);
        }
        let Some(first) = order.iter().copied().find(|&i| self.would_grant(field, memory, i)) else {
            return Vec::new();
        };
        let mut whose = vec![first];
        if self.has(TickFault::TwoSteps) {
            let mut after = memory.to_vec();
            self.step(field, &mut after, first);
            whose.extend(order.into_iter().find(|&i| self.would_grant(field, &after, i)));
        }
        whose
    }

    fn would_grant(&self, field: FieldNumbers, memory: &[u16], shuttle: usize) -> bool {
        self.step(field, &mut memory.to_vec(), shuttle)
    }

    fn step(&self, field: FieldNumbers, memory: &mut [u16], shuttle: usize) -> bool {
        let fault = match self.fault {
            Some(TickFault::NextSquareOnly) => Some(Fault::NextSquareOnly),
            Some(TickFault::NoSteps) => Some(Fault::NothingGranted),
            _ => None,
        };
        RulesCopy { fault }.step(field, memory, shuttle)
    }
}
