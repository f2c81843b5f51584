//! Ticks that are measured.

use crate::case::{Case, Contender};
use crate::halls::{self, Event};
use crate::plain::{Plain, write_step};
use shared::call::TurnNumbers;
use shared::function;
use shared::memory::SQUARE;

pub fn contenders() -> Vec<Contender<function::Tick>> {
    vec![
        Contender { name: "plain", function: function::Tick::by::<Plain>() },
        #[cfg(feature = "tick")]
        Contender { name: "library", function: function::Tick::LIBRARY },
    ]
}

/// A tick in the hall of an event.
pub struct Tick {
    hall: Event,
    waits: Vec<u64>,
    due: Vec<u8>,
    /// The shuttle whose step is granted.
    granted: Option<usize>,
}

impl Case for Tick {
    type Function = function::Tick;
    type Lent = (Vec<u16>, Vec<u64>);

    fn name(&self) -> &str {
        &self.hall.name
    }

    fn told(&self) -> Option<usize> {
        self.granted
    }

    fn lent(&self) -> (Vec<u16>, Vec<u64>) {
        (self.hall.memory.clone(), self.waits.clone())
    }

    fn put_back(&self, (memory, waits): &mut (Vec<u16>, Vec<u64>)) {
        memory.copy_from_slice(&self.hall.memory);
        waits.copy_from_slice(&self.waits);
    }

    fn call(&self, tick: function::Tick, (memory, waits): &mut (Vec<u16>, Vec<u64>)) -> u64 {
        tick.call(self.hall.field(), memory, TurnNumbers { waits, due: &self.due })
    }
}

fn tick(hall: Event, wait: fn(u64) -> u64, due: u8, granted: Option<usize>) -> Tick {
    let count = hall.bays.len();
    Tick { waits: (0..count as u64).map(wait).collect(), due: vec![due; count], hall, granted }
}

/// Two pairs of shuttles are in each other's way, and one step can free no more than one of them.
fn nobody_safe() -> Event {
    let mut hall = Event::largest("tick, sixteen asked, no step safe");
    let squares = [0, 1, 2, 3].map(|i| hall.of_shuttle(i)[SQUARE]);
    for (i, other) in [(0, 1), (1, 0), (2, 3), (3, 2)] {
        hall.block(i, squares[other]);
    }
    hall
}

fn all_move(name: &str) -> Event {
    let mut hall = Event::largest(name);
    (0..16).for_each(|i| write_step(hall.of_shuttle(i)));
    hall
}

pub fn all() -> Vec<Tick> {
    let small = Event { name: "small hall: tick, the first asked is granted".to_string(), ..halls::small() };
    vec![
        tick(Event::largest("tick, the first asked is granted"), |i| 16 - i, 0, Some(0)),
        tick(Event::largest("tick, sixteen asked, each granted"), |i| i, 0, Some(15)),
        tick(nobody_safe(), |i| i, 0, None),
        tick(all_move("tick, all move and none arrives"), |_| 0, 0, None),
        tick(all_move("tick, all arrive, the first asked is granted"), |_| 0, 1, Some(0)),
        tick(small, |i| 2 - i, 0, Some(0)),
    ]
}
