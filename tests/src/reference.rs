//! The rules of the hall, written down as plainly as they are said and with no regard to speed. Everything else is
//! compared with this: the library, the two programs, and copies of the rules with a fault.

pub mod field;
pub mod fleet;
pub mod route;
pub mod safety;
pub mod tick;
pub mod walks;
pub mod way;

use field::Field;
use fleet::Shuttle;
use safety::Safety;
use shared::answer::{Answer, Refusal};
use shared::call::{ARRIVE, Entry, EventNumbers, FieldNumbers, ORDER, STEP};
use shared::memory::{MOST_LEFT, PER_SHUTTLE, part_of_mut};
use shared::random::Random;

/// What came of a call, and why: the answer is a number only, but a run should show that each reason occurred.
#[derive(Clone, Copy, Debug, PartialEq, Eq, PartialOrd, Ord)]
pub enum Outcome {
    Taken,
    Granted,
    Arrived,
    OrderWhileMoving,
    OrderWithSquaresLeft,
    NoRoute,
    StepWhileMoving,
    NothingLeft,
    Held,
    Unsafe,
    NotMoving,
    WrongField,
    WrongMemory,
    WrongEvent,
}

impl Outcome {
    pub const ALL: [Outcome; 14] = [
        Outcome::Taken,
        Outcome::Granted,
        Outcome::Arrived,
        Outcome::OrderWhileMoving,
        Outcome::OrderWithSquaresLeft,
        Outcome::NoRoute,
        Outcome::StepWhileMoving,
        Outcome::NothingLeft,
        Outcome::Held,
        Outcome::Unsafe,
        Outcome::NotMoving,
        Outcome::WrongField,
        Outcome::WrongMemory,
        Outcome::WrongEvent,
    ];

    pub fn answer(self) -> Answer<bool> {
        match self {
            Outcome::Taken | Outcome::Granted | Outcome::Arrived => Ok(true),
            Outcome::WrongField => Err(Refusal::Field),
            Outcome::WrongMemory => Err(Refusal::Memory),
            Outcome::WrongEvent => Err(Refusal::Event),
            _ => Ok(false),
        }
    }
}

enum Event<'a> {
    Order(usize, &'a [u16]),
    Step(usize),
    Arrive(usize),
}

pub struct Reference {
    pub safety: Safety,
}

impl Reference {
    pub fn new(random: Random) -> Reference {
        Reference { safety: Safety::new(random) }
    }

    pub fn outcome(&mut self, numbers: FieldNumbers, memory: &mut [u16], event: EventNumbers) -> Outcome {
        let Some(field) = Field::read(numbers) else {
            return Outcome::WrongField;
        };
        let Some(mut fleet) = fleet::read(&field, memory) else {
            return Outcome::WrongMemory;
        };
        let Some(event) = read_event(&field, event) else {
            return Outcome::WrongEvent;
        };
        let (shuttle, outcome) = match event {
            Event::Order(i, route) => (i, order(&field, &mut fleet, i, route)),
            Event::Step(i) => (i, self.step(&mut fleet, i)),
            Event::Arrive(i) => (i, arrive(&mut fleet[i])),
        };
        if outcome.answer() == Ok(true) {
            fleet[shuttle].write(part_of_mut(memory, shuttle));
        }
        outcome
    }

    fn step(&mut self, fleet: &mut [Shuttle], i: usize) -> Outcome {
        if fleet[i].moves {
            return Outcome::StepWhileMoving;
        }
        let Some((&next, rest)) = fleet[i].left.split_first() else {
            return Outcome::NothingLeft;
        };
        if fleet.iter().enumerate().any(|(j, other)| j != i && other.holds(next)) {
            return Outcome::Held;
        }
        let after = Shuttle { square: next, moves: true, behind: fleet[i].square, left: rest.to_vec() };
        fleet[i] = after;
        if self.safety.all_safe(fleet) { Outcome::Granted } else { Outcome::Unsafe }
    }
}

impl Entry for Reference {
    fn happen(&mut self, field: FieldNumbers, memory: &mut [u16], event: EventNumbers) -> Answer<bool> {
        self.outcome(field, memory, event).answer()
    }

    fn start(&mut self, numbers: FieldNumbers, memory: &mut [u16]) -> Answer<()> {
        let field = Field::read(numbers).ok_or(Refusal::Field)?;
        if memory.len() != PER_SHUTTLE * field.bays.len() {
            return Err(Refusal::Memory);
        }
        for (i, &bay) in field.bays.iter().enumerate() {
            Shuttle::in_bay(bay).write(part_of_mut(memory, i));
        }
        Ok(())
    }
}

/// The limits of a route hold for every kind of event, also for those that don't use it.
fn read_event<'a>(field: &Field, event: EventNumbers<'a>) -> Option<Event<'a>> {
    let shuttle = usize::try_from(event.shuttle).ok().filter(|&i| i < field.bays.len())?;
    if event.route.len() > MOST_LEFT || event.route.iter().any(|&square| square > 4095) {
        return None;
    }
    match event.kind {
        ORDER => Some(Event::Order(shuttle, event.route)),
        STEP => Some(Event::Step(shuttle)),
        ARRIVE => Some(Event::Arrive(shuttle)),
        _ => None,
    }
}

fn order(field: &Field, fleet: &mut [Shuttle], i: usize, route: &[u16]) -> Outcome {
    let square = fleet[i].square;
    if fleet[i].moves {
        return Outcome::OrderWhileMoving;
    }
    if !fleet[i].left.is_empty() {
        return Outcome::OrderWithSquaresLeft;
    }
    if route::judge(field, i, square, route).is_err() {
        return Outcome::NoRoute;
    }
    fleet[i] = Shuttle { square, moves: false, behind: square, left: route.to_vec() };
    Outcome::Taken
}

fn arrive(shuttle: &mut Shuttle) -> Outcome {
    if !shuttle.moves {
        return Outcome::NotMoving;
    }
    shuttle.moves = false;
    shuttle.behind = shuttle.square;
    Outcome::Arrived
}
