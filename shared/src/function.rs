//! The functions of the library as C has them, and functions of Rust that are called in the same way.

use crate::answer::{Answer, Refusal};
use crate::call::{AskedNumbers, Entry, EventNumbers, FieldNumbers, Ticks, TurnNumbers, Ways};
use std::slice::{from_raw_parts, from_raw_parts_mut};

/// A function that does what `include/binarukol.h` says of the one of its name.
pub trait Function: Copy {
    /// What it answers where it doesn't refuse.
    type Told;

    fn number(told: Self::Told) -> u64;

    /// What the number says, if it is one of these and no refusal.
    fn told(number: u64) -> Option<Self::Told>;

    fn answer(number: u64) -> Answer<Self::Told> {
        Self::told(number).ok_or(Refusal::from(number))
    }
}

/// Declares a function whose first arguments are those of a field. The others follow with what is passed for each, and
/// then how a variant in Rust is called with them.
macro_rules! function {
    (
        $function:ident = $name:ident of $feature:literal, of $field:ident $(, $given:ident: $taken:ty)* {
            $($argument:ident: $in_c:ty = $passed:expr,)*
        }
        by $variant:ident: $does:ident $answer:block
    ) => {
        #[derive(Clone, Copy)]
        pub struct $function(unsafe extern "C" fn(u64, u64, *const u8, usize, *const u16, usize, $($in_c),*) -> u64);

        #[cfg(feature = $feature)]
        #[link(name = "capi", kind = "static")]
        unsafe extern "C" {
            fn $name(
                across: u64,
                down: u64,
                walls: *const u8,
                walls_len: usize,
                bays: *const u16,
                bays_len: usize,
                $($argument: $in_c),*
            ) -> u64;
        }

        impl $function {
            #[cfg(feature = $feature)]
            pub const LIBRARY: $function = $function($name);

            #[inline]
            pub fn call(self, $field: FieldNumbers, $($given: $taken),*) -> u64 {
                let FieldNumbers { across, down, walls, bays } = $field;
                let (walls_at, bays_at) = (walls.as_ptr(), bays.as_ptr());
                // SAFETY: each pointer and length are those of one slice, which is lent to be changed if it is written.
                unsafe { (self.0)(across, down, walls_at, walls.len(), bays_at, bays.len(), $($passed),*) }
            }

            pub const fn by<$variant: $does + Default>() -> $function {
                unsafe extern "C" fn by<$variant: $does + Default>(
                    across: u64,
                    down: u64,
                    walls: *const u8,
                    walls_len: usize,
                    bays: *const u16,
                    bays_len: usize,
                    $($argument: $in_c),*
                ) -> u64 {
                    // SAFETY: the caller passes the pointers and lengths of slices that don't overlap.
                    let answer = unsafe {
                        let (walls, bays) = (from_raw_parts(walls, walls_len), from_raw_parts(bays, bays_len));
                        let $field = FieldNumbers { across, down, walls, bays };
                        $answer
                    };
                    answer.map_or_else(u64::from, $function::number)
                }
                $function(by::<$variant>)
            }
        }
    };
}

function! {
    Happen = happen of "library", of field, memory: &mut [u16], event: EventNumbers {
        memory: *mut u16 = memory.as_mut_ptr(),
        memory_len: usize = memory.len(),
        kind: u64 = event.kind,
        shuttle: u64 = event.shuttle,
        route: *const u16 = event.route.as_ptr(),
        route_len: usize = event.route.len(),
    }
    by V: Entry {
        let event = EventNumbers { kind, shuttle, route: from_raw_parts(route, route_len) };
        V::default().happen(field, from_raw_parts_mut(memory, memory_len), event)
    }
}

function! {
    Start = start of "library", of field, memory: &mut [u16] {
        memory: *mut u16 = memory.as_mut_ptr(),
        memory_len: usize = memory.len(),
    }
    by V: Entry { V::default().start(field, from_raw_parts_mut(memory, memory_len)) }
}

function! {
    Way = way of "way", of field, asked: AskedNumbers, route: &mut [u16] {
        shuttle: u64 = asked.shuttle,
        from: u16 = asked.from,
        row: *const u16 = asked.row.as_ptr(),
        row_len: usize = asked.row.len(),
        route: *mut u16 = route.as_mut_ptr(),
        route_len: usize = route.len(),
    }
    by V: Ways {
        let asked = AskedNumbers { shuttle, from, row: from_raw_parts(row, row_len) };
        V::default().way(field, asked, from_raw_parts_mut(route, route_len))
    }
}

function! {
    Tick = tick of "tick", of field, memory: &mut [u16], turns: TurnNumbers {
        memory: *mut u16 = memory.as_mut_ptr(),
        memory_len: usize = memory.len(),
        waits: *mut u64 = turns.waits.as_mut_ptr(),
        waits_len: usize = turns.waits.len(),
        due: *const u8 = turns.due.as_ptr(),
        due_len: usize = turns.due.len(),
    }
    by V: Ticks {
        let turns = TurnNumbers { waits: from_raw_parts_mut(waits, waits_len), due: from_raw_parts(due, due_len) };
        V::default().tick(field, from_raw_parts_mut(memory, memory_len), turns)
    }
}

impl Function for Happen {
    type Told = bool;

    #[inline]
    fn number(happened: bool) -> u64 {
        u64::from(!happened)
    }

    fn told(number: u64) -> Option<bool> {
        match number {
            0 => Some(true),
            1 => Some(false),
            _ => None,
        }
    }
}

impl Function for Start {
    type Told = ();

    #[inline]
    fn number((): ()) -> u64 {
        0
    }

    fn told(number: u64) -> Option<()> {
        (number == 0).then_some(())
    }
}

/// The length of a route stands above the low 8 bits.
impl Function for Way {
    type Told = Option<usize>;

    #[inline]
    fn number(length: Option<usize>) -> u64 {
        length.map_or(1, |length| ((length as u64) << 8) | 2)
    }

    fn told(number: u64) -> Option<Option<usize>> {
        match (number & 0xff, number >> 8) {
            (1, 0) => Some(None),
            (2, length) => Some(Some(length as usize)),
            _ => None,
        }
    }
}

/// The shuttle stands above the low 8 bits.
impl Function for Tick {
    type Told = Option<usize>;

    #[inline]
    fn number(shuttle: Option<usize>) -> u64 {
        shuttle.map_or(1, |shuttle| (shuttle as u64) << 8)
    }

    fn told(number: u64) -> Option<Option<usize>> {
        match (number & 0xff, number >> 8) {
            (1, 0) => Some(None),
            (0, shuttle) => Some(Some(shuttle as usize)),
            _ => None,
        }
    }
}

#[cfg(test)]
mod tests {
    use super::*;

    /// Every number says something, and what it says is that number.
    #[test]
    fn numbers_and_answers_are_the_same() {
        fn same<F: Function>(number: u64) {
            assert_eq!(F::answer(number).map_or_else(u64::from, F::number), number);
        }
        for number in (0..=0x1_0000).chain([1 << 32, u64::MAX - 1, u64::MAX]) {
            same::<Happen>(number);
            same::<Start>(number);
            same::<Way>(number);
            same::<Tick>(number);
        }
    }
}
