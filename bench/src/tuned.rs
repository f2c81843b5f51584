//! The same answers with what can be done by hand: a table that is kept and cleared by the entries that were set,
//! four squares of a route at a time without index checks, bays as a set of bits, and no division for each step of a
//! new route.

use crate::plain::{Plain, all_taken_out, check_event, check_field};
use shared::answer::{Answer, Refusal};
use shared::call::{Entry, EventNumbers, FieldNumbers, ORDER, STEP};
use shared::memory::{BEHIND, LENGTH, MARK, MOST_LEFT, PER_SHUTTLE, PLACES, SQUARE, part_of, part_of_mut};
use std::cell::RefCell;

thread_local! {
    /// Who stands on each square; all 0 between calls.
    static STANDING: RefCell<[u16; 4096]> = const { RefCell::new([0; 4096]) };
}

#[derive(Clone, Copy, Default)]
pub struct Tuned;

impl Entry for Tuned {
    fn happen(&mut self, field: FieldNumbers, memory: &mut [u16], event: EventNumbers) -> Answer<bool> {
        check_field(field)?;
        let mut parts = memory.chunks_exact(PER_SHUTTLE);
        let (squares, shuttles) = (field.walls.len(), field.bays.len());
        if memory.len() != PER_SHUTTLE * shuttles || !parts.all(|part| part_fits(squares, part)) {
            return Err(Refusal::Memory);
        }
        check_event(field, event)?;
        let i = event.shuttle as usize;
        Ok(match event.kind {
            ORDER => order(field, i, part_of_mut(memory, i), event.route),
            STEP => step(i, memory),
            _ => arrive(part_of_mut(memory, i)),
        })
    }

    /// The start is not measured.
    fn start(&mut self, field: FieldNumbers, memory: &mut [u16]) -> Answer<()> {
        Plain.start(field, memory)
    }
}

/// What is above the last square is collected by subtraction that stops at 0, which is one instruction for eight
/// numbers where the greater of two is not.
fn part_fits(squares: usize, part: &[u16]) -> bool {
    let length = usize::from(part[LENGTH]);
    if part[MARK] > 1 || length > MOST_LEFT {
        return false;
    }
    let last = (squares - 1) as u16;
    let above = |square: u16| square.saturating_sub(last);
    let left = &part[PLACES..PLACES + length];
    left.iter().fold(above(part[SQUARE]) | above(part[BEHIND]), |all, &square| all | above(square)) == 0
}

fn order(field: FieldNumbers, i: usize, part: &mut [u16], route: &[u16]) -> bool {
    if part[MARK] == 1 || part[LENGTH] > 0 || !is_route(field, field.bays[i], part[SQUARE], route) {
        return false;
    }
    part[PLACES..PLACES + route.len()].copy_from_slice(route);
    part[BEHIND] = part[SQUARE];
    part[LENGTH] = route.len() as u16;
    true
}

fn is_route(FieldNumbers { across, walls, bays, .. }: FieldNumbers, own: u16, from: u16, route: &[u16]) -> bool {
    let across = across as u16;
    let mut closed = [0u64; 64];
    for &bay in bays {
        closed[usize::from(bay) / 64] |= 1 << (bay % 64);
    }
    let mut at = from;
    let mut column = from % across;
    for (step, &next) in route.iter().enumerate() {
        // Below and above come first: in a field of one column the next number is the square below.
        match next.wrapping_sub(at) {
            down if down == across => {}
            up if up == across.wrapping_neg() => {}
            1 if column + 1 < across => column += 1,
            u16::MAX if column > 0 => column -= 1,
            _ => return false,
        }
        let free = walls.get(usize::from(next)).is_some_and(|&mark| mark == 0);
        let bay = closed[usize::from(next) / 64 % 64] >> (next % 64) & 1 == 1;
        if !free || (bay && (next != own || step + 1 < route.len())) {
            return false;
        }
        at = next;
    }
    at == own
}

fn step(i: usize, memory: &mut [u16]) -> bool {
    let part = part_of(memory, i);
    let (square, length, next) = (part[SQUARE], usize::from(part[LENGTH]), part[PLACES]);
    if part[MARK] == 1 || length == 0 {
        return false;
    }
    let holds = |part: &[u16]| part[SQUARE] == next || (part[MARK] == 1 && part[BEHIND] == next);
    let others = memory.chunks_exact(PER_SHUTTLE).enumerate().filter(|(j, _)| *j != i);
    if others.fold(false, |held, (_, part)| held | holds(part)) {
        return false;
    }
    if !STANDING.with_borrow_mut(|standing| safe(standing, i, next, memory)) {
        return false;
    }
    let part = part_of_mut(memory, i);
    part[..PLACES].copy_from_slice(&[next, 1, square, length as u16 - 1]);
    part.copy_within(PLACES + 1..PLACES + length, PLACES);
    true
}

fn safe(standing: &mut [u16; 4096], stepped: usize, next: u16, memory: &[u16]) -> bool {
    let parts = memory.chunks_exact(PER_SHUTTLE);
    let square = |i: usize, part: &[u16]| usize::from(if i == stepped { next } else { part[SQUARE] }) & 4095;
    for (i, part) in parts.clone().enumerate() {
        standing[square(i, part)] |= 1 << i;
    }
    let mut blockers = [0u16; 16];
    for (i, part) in parts.clone().enumerate().take(16) {
        let left = &part[PLACES..PLACES + usize::from(part[LENGTH])];
        let left = if i == stepped { &left[1..] } else { left };
        blockers[i] = met(standing, left) & !(1 << i);
    }
    for (i, part) in parts.clone().enumerate() {
        standing[square(i, part)] = 0;
    }
    all_taken_out(&blockers[..parts.len()])
}

/// Everybody who stands on one of these squares, all of which were found to be below 4096.
fn met(standing: &[u16; 4096], left: &[u16]) -> u16 {
    // SAFETY: part_fits has shown that every square is one of a field, which has at most 4096.
    let on = |square: u16| unsafe { *standing.get_unchecked(usize::from(square)) };
    let (fours, rest) = left.as_chunks::<4>();
    let mut all = [0u16; 4];
    for four in fours {
        all[0] |= on(four[0]);
        all[1] |= on(four[1]);
        all[2] |= on(four[2]);
        all[3] |= on(four[3]);
    }
    rest.iter().fold(all[0] | all[1] | all[2] | all[3], |all, &square| all | on(square))
}

fn arrive(part: &mut [u16]) -> bool {
    let moves = part[MARK] == 1;
    if moves {
        part[MARK] = 0;
        part[BEHIND] = part[SQUARE];
    }
    moves
}
