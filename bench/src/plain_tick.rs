//! A tick by the library's algorithm with all its checks in plain Rust.

use crate::plain::{Fleet, Plain, check_field, check_memory, fleet, is_granted, write_step};
use shared::answer::{Answer, Refusal};
use shared::call::{FieldNumbers, Ticks, TurnNumbers};
use shared::memory::{BEHIND, MARK, PER_SHUTTLE, SQUARE, part_of_mut};

impl Ticks for Plain {
    fn tick(&mut self, field: FieldNumbers, memory: &mut [u16], turns: TurnNumbers) -> Answer<Option<usize>> {
        check_field(field)?;
        check_memory(field, memory)?;
        let TurnNumbers { waits, due } = turns;
        let shuttles = field.bays.len();
        let lengths_fit = waits.len() == shuttles && due.len() == shuttles;
        if !lengths_fit || waits.contains(&u64::MAX) || due.iter().any(|&mark| mark > 1) {
            return Err(Refusal::Turns);
        }
        Ok(make(memory, waits, due, |fleet, memory, i| is_granted(fleet, shuttles, i, memory)))
    }
}

/// Makes a tick by any rule of which steps may be granted, and says whose was.
pub fn make(
    memory: &mut [u16],
    waits: &mut [u64],
    due: &[u8],
    may_step: impl Fn(&Fleet, &[u16], usize) -> bool,
) -> Option<usize> {
    let parts = memory.chunks_exact_mut(PER_SHUTTLE).zip(due);
    for (part, _) in parts.filter(|(part, mark)| **mark == 1 && part[MARK] == 1) {
        part[MARK] = 0;
        part[BEHIND] = part[SQUARE];
    }
    let fleet = fleet(memory);
    for (shuttle, wait) in fleet.iter().zip(&mut *waits) {
        *wait = if shuttle.moves || shuttle.length == 0 { 0 } else { *wait + 1 };
    }
    let mut best = None;
    for i in 0..waits.len() {
        // Whether a step may be granted is asked last, since it takes longest.
        if best.is_none_or(|best: usize| waits[best] < waits[i]) && may_step(&fleet, memory, i) {
            best = Some(i);
        }
    }
    let whose = best?;
    write_step(part_of_mut(memory, whose));
    waits[whose] = 0;
    Some(whose)
}
