//! The calls: a field and an event as plain numbers, and memory that is lent to be changed.

use crate::answer::Answer;

/// Kinds of events. A call may pass any number as its kind.
pub const ORDER: u64 = 0;
pub const STEP: u64 = 1;
pub const ARRIVE: u64 = 2;

/// The most squares that a way can be asked for.
pub const MOST_ASKED: usize = 8;

/// A field as it is passed: not yet known to be one.
#[derive(Clone, Copy)]
pub struct FieldNumbers<'a> {
    pub across: u64,
    pub down: u64,
    pub walls: &'a [u8],
    pub bays: &'a [u16],
}

/// An event as it is passed: not yet known to be one.
#[derive(Clone, Copy)]
pub struct EventNumbers<'a> {
    pub kind: u64,
    pub shuttle: u64,
    pub route: &'a [u16],
}

/// What a way is asked for, as it is passed: not yet known to be acceptable.
#[derive(Clone, Copy)]
pub struct AskedNumbers<'a> {
    pub shuttle: u64,
    pub from: u16,
    pub row: &'a [u16],
}

/// What is lent to a tick beside memory: how long each shuttle has waited, and whose arrivals are due.
pub struct TurnNumbers<'a> {
    pub waits: &'a mut [u64],
    pub due: &'a [u8],
}

/// Events, in the library and in what it is compared with.
pub trait Entry {
    /// Whether the event happens.
    fn happen(&mut self, field: FieldNumbers, memory: &mut [u16], event: EventNumbers) -> Answer<bool>;

    fn start(&mut self, field: FieldNumbers, memory: &mut [u16]) -> Answer<()>;
}

/// Shortest routes.
pub trait Ways {
    /// The length of the route, if there is one. It is written to the first of the places lent.
    fn way(&mut self, field: FieldNumbers, asked: AskedNumbers, route: &mut [u16]) -> Answer<Option<usize>>;
}

/// Whose turn it is.
pub trait Ticks {
    /// The shuttle whose step is granted.
    fn tick(&mut self, field: FieldNumbers, memory: &mut [u16], turns: TurnNumbers) -> Answer<Option<usize>>;
}
