//! The rules by another algorithm than the reference's: on the numbers of memory themselves, with a set of blockers
//! for each shuttle as bits. Without a fault it must agree with the reference in everything.

use super::blocking::{all_can_run, all_run_past_bays, at_home, has_ring, take_out_once};
use super::{Fault, refuse};
use shared::answer::{Answer, Refusal};
use shared::call::{ARRIVE, Entry, EventNumbers, FieldNumbers, ORDER, STEP};
use shared::memory::{BEHIND, LENGTH, MARK, MOST_LEFT, PER_SHUTTLE, PLACES, SQUARE, part_of, part_of_mut};

#[derive(Clone, Copy)]
pub struct RulesCopy {
    pub fault: Option<Fault>,
}

impl Entry for RulesCopy {
    fn happen(&mut self, field: FieldNumbers, memory: &mut [u16], event: EventNumbers) -> Answer<bool> {
        let order = if self.has(Fault::EventBeforeMemory) {
            [Refusal::Field, Refusal::Event, Refusal::Memory]
        } else {
            [Refusal::Field, Refusal::Memory, Refusal::Event]
        };
        refuse(order, |refusal| match refusal {
            Refusal::Field => self.field_fits(field),
            Refusal::Memory => self.memory_fits(field, memory),
            _ => self.event_fits(field, event),
        })?;
        let shuttle = event.shuttle as usize;
        Ok(match event.kind {
            ORDER => self.order(field, memory, shuttle, event.route),
            STEP => self.step(field, memory, shuttle),
            _ => self.arrive(part_of_mut(memory, shuttle)),
        })
    }

    fn start(&mut self, field: FieldNumbers, memory: &mut [u16]) -> Answer<()> {
        if !self.field_fits(field) {
            return Err(Refusal::Field);
        }
        if memory.len() != PER_SHUTTLE * field.bays.len() {
            return Err(Refusal::Memory);
        }
        for (i, &bay) in field.bays.iter().enumerate() {
            let part = part_of_mut(memory, i);
            part[..PLACES].copy_from_slice(&[bay, 0, bay, 0]);
            if self.has(Fault::StartClearsPlaces) {
                part[PLACES..].fill(0);
            }
        }
        Ok(())
    }
}

impl RulesCopy {
    fn has(&self, fault: Fault) -> bool {
        self.fault == Some(fault)
    }

    pub(super) fn field_fits(&self, field: FieldNumbers) -> bool {
        let most = if self.has(Fault::SizeSixtyFive) { 65 } else { 64 };
        let size = (1..=most).contains(&field.across) && (1..=64).contains(&field.down);
        let top_mark = if self.has(Fault::WallMarks) { 255 } else { 1 };
        let most_bays = if self.has(Fault::SeventeenBays) { 17 } else { 16 };
        size && field.walls.len() as u64 == field.across * field.down
            && field.walls.iter().all(|&mark| mark <= top_mark)
            && field.bays.len() <= most_bays
            && (0..field.bays.len()).all(|i| self.bay_fits(field, i))
    }

    fn bay_fits(&self, field: FieldNumbers, i: usize) -> bool {
        let bay = field.bays[i];
        let compared = if self.has(Fault::SameBayTwice) { i.saturating_sub(1)..i } else { 0..i };
        let on_wall = |mark: &u8| *mark != 0 && !self.has(Fault::BayOnWall);
        field.walls.get(usize::from(bay)).is_some_and(|mark| !on_wall(mark)) && !field.bays[compared].contains(&bay)
    }

    pub(super) fn memory_fits(&self, field: FieldNumbers, memory: &[u16]) -> bool {
        let count = field.bays.len();
        memory.len() == PER_SHUTTLE * count && (0..count).all(|i| self.part_fits(field, part_of(memory, i)))
    }

    fn part_fits(&self, field: FieldNumbers, part: &[u16]) -> bool {
        let inside = |square: u16| usize::from(square) < field.walls.len();
        let top_mark = if self.has(Fault::MarkTwo) { 2 } else { 1 };
        let most_left = if self.has(Fault::LongerLength) { MOST_LEFT + 1 } else { MOST_LEFT };
        let behind_fits = inside(part[BEHIND]) || (self.has(Fault::BehindUnchecked) && part[MARK] == 0);
        let read = if self.has(Fault::UnneededChecked) { &part[PLACES..] } else { left(part) };
        part[MARK] <= top_mark
            && usize::from(part[LENGTH]) <= most_left
            && inside(part[SQUARE])
            && behind_fits
            && read.iter().all(|&square| inside(square))
    }

    fn event_fits(&self, field: FieldNumbers, event: EventNumbers) -> bool {
        let top_kind = if self.has(Fault::KindThree) { 3 } else { ARRIVE };
        let most = if self.has(Fault::LongerRoute) { MOST_LEFT + 1 } else { MOST_LEFT };
        let route_fits = event.route.len() <= most && event.route.iter().all(|&square| square < 4096);
        let unused = self.has(Fault::RouteOfOrdersOnly) && event.kind != ORDER;
        event.kind <= top_kind && event.shuttle < field.bays.len() as u64 && (route_fits || unused)
    }

    fn order(&self, field: FieldNumbers, memory: &mut [u16], shuttle: usize, route: &[u16]) -> bool {
        let busy = |part: &[u16]| part[MARK] != 0 || part[LENGTH] != 0;
        let waits = self.has(Fault::OrderInEmptyHall) && memory.chunks(PER_SHUTTLE).any(busy);
        let part = part_of_mut(memory, shuttle);
        let stands = part[MARK] == 0 || self.has(Fault::OrderWhileMoving);
        let free = part[LENGTH] == 0 || self.has(Fault::OrderOverRoute);
        let is_route = route.len() <= MOST_LEFT && self.is_route(field, shuttle, part[SQUARE], route);
        if !stands || !free || !is_route || waits || self.has(Fault::NoRouteTaken) {
            return false;
        }
        part[MARK] = 0;
        part[LENGTH] = route.len() as u16;
        part[PLACES..PLACES + route.len()].copy_from_slice(route);
        if !self.has(Fault::BehindUnsetByOrder) {
            part[BEHIND] = part[SQUARE];
        }
        if self.has(Fault::OrderClearsPlaces) {
            part[PLACES + route.len()..].fill(0);
        }
        true
    }

    fn is_route(&self, field: FieldNumbers, shuttle: usize, from: u16, route: &[u16]) -> bool {
        let own = field.bays[shuttle];
        let befores = std::iter::once(&from).chain(route);
        let steps_fit = befores.zip(route).enumerate().all(|(step, (&before, &next))| {
            let last = step + 1 == route.len();
            let own_fits = next != own || last || self.has(Fault::OwnBayBetween);
            let other_fits = next == own || !field.bays.contains(&next) || self.has(Fault::OthersBay);
            let free = |mark: &u8| *mark == 0 || self.has(Fault::ThroughWalls);
            let in_field = field.walls.get(usize::from(next)).is_some_and(free);
            in_field && own_fits && other_fits && self.beside(field, before, next)
        });
        let end = *route.last().unwrap_or(&from);
        steps_fit && (end == own || self.has(Fault::EndsOutside))
    }

    pub(super) fn beside(&self, field: FieldNumbers, one: u16, other: u16) -> bool {
        let across = field.across as u16;
        let (low, high) = (one.min(other), one.max(other));
        let same_row = low / across == high / across || self.has(Fault::RowEnds);
        high - low == across || (high - low == 1 && same_row)
    }

    pub(super) fn step(&self, field: FieldNumbers, memory: &mut [u16], shuttle: usize) -> bool {
        let part = part_of(memory, shuttle);
        let stands = part[MARK] == 0 || self.has(Fault::StepWhileMoving);
        if !stands || part[LENGTH] == 0 || self.has(Fault::NothingGranted) {
            return false;
        }
        if self.held_by_other(memory, shuttle, part[PLACES]) {
            return false;
        }
        let mut after = memory.to_vec();
        self.make_step(part_of_mut(&mut after, shuttle));
        let looked_at = if self.has(Fault::SafeBeforeStep) { &*memory } else { &after };
        let safe = self.safe(field, looked_at);
        if safe || self.has(Fault::UnsafeStepWritten) {
            memory.copy_from_slice(&after);
        }
        safe
    }

    fn held_by_other(&self, memory: &[u16], shuttle: usize, square: u16) -> bool {
        let holds = |part: &[u16]| {
            let keeps_behind = part[MARK] != 0 && !self.has(Fault::LetGoEarly);
            part[SQUARE] == square || (keeps_behind && part[BEHIND] == square)
        };
        let asked = |other: usize| other < shuttle || (other > shuttle && !self.has(Fault::HeldByEarlierOnly));
        memory.chunks(PER_SHUTTLE).enumerate().any(|(other, part)| asked(other) && holds(part))
    }

    fn make_step(&self, part: &mut [u16]) {
        let end = PLACES + usize::from(part[LENGTH]).min(MOST_LEFT);
        if !self.has(Fault::BehindNotSetByStep) {
            part[BEHIND] = part[SQUARE];
        }
        part[SQUARE] = part[PLACES];
        part[MARK] = 1;
        part[LENGTH] -= 1;
        let shifted = if self.has(Fault::AllPlacesShifted) { part.len() } else { end };
        part.copy_within(PLACES + 1..shifted, PLACES);
        if self.has(Fault::LastPlaceOverwritten) {
            part[end - 1] = 0;
        }
    }

    fn safe(&self, field: FieldNumbers, memory: &[u16]) -> bool {
        let blockers = self.blockers(field, memory);
        match self.fault {
            Some(Fault::NextSquareOnly) => true,
            Some(Fault::NothingSafe) => false,
            Some(Fault::OnePass) => take_out_once(&blockers, (1 << blockers.len()) - 1) == 0,
            Some(Fault::RingsOfTwo) => !has_ring(&blockers, 2),
            Some(Fault::RingsOfFour) => !has_ring(&blockers, 4),
            Some(Fault::HomeInTheWay) => all_run_past_bays(&blockers, &at_home(field, memory)),
            _ => all_can_run(&blockers),
        }
    }

    /// For each shuttle the set of the others whose squares are among what is left to it.
    fn blockers(&self, field: FieldNumbers, memory: &[u16]) -> Vec<u32> {
        let mut standing = vec![0u32; field.walls.len()];
        for (i, part) in memory.chunks(PER_SHUTTLE).enumerate() {
            standing[usize::from(part[SQUARE])] |= 1 << i;
            if self.has(Fault::BehindInSafety) && part[MARK] == 1 {
                standing[usize::from(part[BEHIND])] |= 1 << i;
            }
        }
        let met = |part: &[u16]| left(part).iter().fold(0, |set, &square| set | standing[usize::from(square)]);
        let own = |i: usize| if self.has(Fault::OwnSquareInTheWay) { 0 } else { 1 << i };
        memory.chunks(PER_SHUTTLE).enumerate().map(|(i, part)| met(part) & !own(i)).collect()
    }

    pub(super) fn arrive(&self, part: &mut [u16]) -> bool {
        if part[MARK] == 0 && !self.has(Fault::ArrivalOfStanding) {
            return false;
        }
        part[MARK] = 0;
        if !self.has(Fault::BehindUnsetByArrival) {
            part[BEHIND] = part[SQUARE];
        }
        true
    }
}

/// What is left of the route in the part of memory of one shuttle.
pub fn left(part: &[u16]) -> &[u16] {
    &part[PLACES..PLACES + usize::from(part[LENGTH]).min(MOST_LEFT)]
}
