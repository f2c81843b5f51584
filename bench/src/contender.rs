//! Events: what is called, and by which functions.

use crate::case::{Case, Contender};
use crate::halls::Event;
use crate::plain::Plain;
use crate::tuned::Tuned;
use shared::call::EventNumbers;
use shared::function::Happen;
use shared::memory::{part_of, part_of_mut};

impl Case for Event {
    type Function = Happen;
    type Lent = Vec<u16>;

    fn name(&self) -> &str {
        &self.name
    }

    fn told(&self) -> bool {
        self.happens
    }

    fn lent(&self) -> Vec<u16> {
        self.memory.clone()
    }

    /// A call may change the part of its shuttle.
    fn put_back(&self, memory: &mut Vec<u16>) {
        part_of_mut(memory, self.shuttle).copy_from_slice(part_of(&self.memory, self.shuttle));
    }

    fn call(&self, happen: Happen, memory: &mut Vec<u16>) -> u64 {
        let event = EventNumbers { kind: self.kind, shuttle: self.shuttle as u64, route: &self.route };
        happen.call(self.field(), memory, event)
    }
}

/// Plain Rust comes first: the others are compared with it.
pub fn all() -> Vec<Contender<Happen>> {
    vec![
        Contender { name: "plain", function: Happen::by::<Plain>() },
        #[cfg(feature = "library")]
        Contender { name: "library", function: Happen::LIBRARY },
        Contender { name: "tuned", function: Happen::by::<Tuned>() },
    ]
}
