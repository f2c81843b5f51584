//! The static library, called as a C program calls it.

use crate::answer::Answer;
use crate::call::{Entry, EventNumbers, FieldNumbers};
use crate::function::{Function, Happen, Start};

pub struct Library;

impl Entry for Library {
    fn happen(&mut self, field: FieldNumbers, memory: &mut [u16], event: EventNumbers) -> Answer<bool> {
        Happen::answer(Happen::LIBRARY.call(field, memory, event))
    }

    fn start(&mut self, field: FieldNumbers, memory: &mut [u16]) -> Answer<()> {
        Start::answer(Start::LIBRARY.call(field, memory))
    }
}

#[cfg(feature = "way")]
mod ways {
    use super::Library;
    use crate::answer::Answer;
    use crate::call::{AskedNumbers, FieldNumbers, Ways};
    use crate::function::{Function, Way};

    impl Ways for Library {
        fn way(&mut self, field: FieldNumbers, asked: AskedNumbers, route: &mut [u16]) -> Answer<Option<usize>> {
            Way::answer(Way::LIBRARY.call(field, asked, route))
        }
    }
}

#[cfg(feature = "tick")]
mod ticks {
    use super::Library;
    use crate::answer::Answer;
    use crate::call::{FieldNumbers, Ticks, TurnNumbers};
    use crate::function::{Function, Tick};

    impl Ticks for Library {
        fn tick(&mut self, field: FieldNumbers, memory: &mut [u16], turns: TurnNumbers) -> Answer<Option<usize>> {
            Tick::answer(Tick::LIBRARY.call(field, memory, turns))
        }
    }
}
