//! The library's algorithm with all its checks in plain Rust.

use shared::answer::{Answer, Refusal};
use shared::call::{ARRIVE, Entry, EventNumbers, FieldNumbers, ORDER, STEP};
use shared::memory::{BEHIND, LENGTH, MARK, MOST_LEFT, PER_SHUTTLE, PLACES, SQUARE, part_of, part_of_mut};

#[derive(Clone, Copy, Default)]
pub struct Plain;

impl Entry for Plain {
    fn happen(&mut self, field: FieldNumbers, memory: &mut [u16], event: EventNumbers) -> Answer<bool> {
        check_field(field)?;
        check_memory(field, memory)?;
        check_event(field, event)?;
        let i = event.shuttle as usize;
        let fleet = fleet(memory);
        Ok(match event.kind {
            ORDER => order(field, fleet[i], i, memory, event.route),
            STEP => step(&fleet, field.bays.len(), i, memory),
            _ => arrive(fleet[i], part_of_mut(memory, i)),
        })
    }

    fn start(&mut self, field: FieldNumbers, memory: &mut [u16]) -> Answer<()> {
        check_field(field)?;
        if memory.len() != PER_SHUTTLE * field.bays.len() {
            return Err(Refusal::Memory);
        }
        for (part, &bay) in memory.chunks_exact_mut(PER_SHUTTLE).zip(field.bays) {
            part[..PLACES].copy_from_slice(&[bay, 0, bay, 0]);
        }
        Ok(())
    }
}

#[derive(Clone, Copy, Default)]
pub struct Shuttle {
    pub square: u16,
    pub moves: bool,
    behind: u16,
    pub length: u16,
}

impl Shuttle {
    pub fn holds(self, square: u16) -> bool {
        self.square == square || (self.moves && self.behind == square)
    }
}

pub type Fleet = [Shuttle; 16];

pub fn check_field(field: FieldNumbers) -> Answer<()> {
    if field_fits(field) { Ok(()) } else { Err(Refusal::Field) }
}

fn field_fits(FieldNumbers { across, down, walls, bays }: FieldNumbers) -> bool {
    if !(1..=64).contains(&across) || !(1..=64).contains(&down) || walls.len() as u64 != across * down {
        return false;
    }
    // Without an early exit the loop is vectorized.
    if walls.iter().fold(0, |top, &mark| top.max(mark)) > 1 || bays.len() > 16 {
        return false;
    }
    bays.iter()
        .enumerate()
        .all(|(i, &bay)| walls.get(usize::from(bay)).is_some_and(|&mark| mark == 0) && !bays[..i].contains(&bay))
}

pub fn check_memory(field: FieldNumbers, memory: &[u16]) -> Answer<()> {
    let mut parts = memory.chunks_exact(PER_SHUTTLE);
    let fits = memory.len() == PER_SHUTTLE * field.bays.len() && parts.all(|part| part_fits(field.walls.len(), part));
    if fits { Ok(()) } else { Err(Refusal::Memory) }
}

fn part_fits(squares: usize, part: &[u16]) -> bool {
    let length = usize::from(part[LENGTH]);
    if part[MARK] > 1 || length > MOST_LEFT {
        return false;
    }
    let left = &part[PLACES..PLACES + length];
    let top = left.iter().fold(part[SQUARE].max(part[BEHIND]), |top, &square| top.max(square));
    usize::from(top) < squares
}

pub fn check_event(field: FieldNumbers, event: EventNumbers) -> Answer<()> {
    let EventNumbers { kind, shuttle, route } = event;
    let fits = kind <= ARRIVE
        && shuttle < field.bays.len() as u64
        && route.len() <= MOST_LEFT
        && route.iter().fold(0, |top, &square| top.max(square)) <= 4095;
    if fits { Ok(()) } else { Err(Refusal::Event) }
}

pub fn fleet(memory: &[u16]) -> Fleet {
    let mut fleet = Fleet::default();
    for (shuttle, part) in fleet.iter_mut().zip(memory.chunks_exact(PER_SHUTTLE)) {
        *shuttle = Shuttle { square: part[SQUARE], moves: part[MARK] == 1, behind: part[BEHIND], length: part[LENGTH] };
    }
    fleet
}

fn order(field: FieldNumbers, shuttle: Shuttle, i: usize, memory: &mut [u16], route: &[u16]) -> bool {
    if shuttle.moves || shuttle.length > 0 || !is_route(field, field.bays[i], shuttle.square, route) {
        return false;
    }
    let part = part_of_mut(memory, i);
    part[PLACES..PLACES + route.len()].copy_from_slice(route);
    part[MARK] = 0;
    part[BEHIND] = shuttle.square;
    part[LENGTH] = route.len() as u16;
    true
}

fn is_route(FieldNumbers { across, walls, bays, .. }: FieldNumbers, own: u16, from: u16, route: &[u16]) -> bool {
    let mut at = from;
    for (step, &next) in route.iter().enumerate() {
        let last = step + 1 == route.len();
        let free = walls.get(usize::from(next)).is_some_and(|&mark| mark == 0);
        let enters = if next == own { last } else { !bays.contains(&next) };
        if !free || !beside(across as u16, at, next) || !enters {
            return false;
        }
        at = next;
    }
    at == own
}

fn beside(across: u16, one: u16, other: u16) -> bool {
    let (low, high) = (one.min(other), one.max(other));
    high - low == across || (high - low == 1 && low / across == high / across)
}

fn step(fleet: &Fleet, shuttles: usize, i: usize, memory: &mut [u16]) -> bool {
    let granted = is_granted(fleet, shuttles, i, memory);
    if granted {
        write_step(part_of_mut(memory, i));
    }
    granted
}

pub fn is_granted(fleet: &Fleet, shuttles: usize, i: usize, memory: &[u16]) -> bool {
    let Shuttle { square, moves, length, .. } = fleet[i];
    if moves || length == 0 {
        return false;
    }
    let next = part_of(memory, i)[PLACES];
    if fleet[..shuttles].iter().enumerate().any(|(j, other)| j != i && other.holds(next)) {
        return false;
    }
    let mut after = *fleet;
    after[i] = Shuttle { square: next, moves: true, behind: square, length: length - 1 };
    safe(&after[..shuttles], i, memory)
}

pub fn write_step(part: &mut [u16]) {
    let (square, length, next) = (part[SQUARE], part[LENGTH], part[PLACES]);
    part[..PLACES].copy_from_slice(&[next, 1, square, length - 1]);
    part.copy_within(PLACES + 1..PLACES + usize::from(length), PLACES);
}

/// Whether all is safe. Memory is still as it was before the step of shuttle `stepped`, whose first square is gone.
fn safe(fleet: &[Shuttle], stepped: usize, memory: &[u16]) -> bool {
    let mut standing = [0u16; 4096];
    for (i, shuttle) in fleet.iter().enumerate() {
        standing[usize::from(shuttle.square) & 4095] |= 1 << i;
    }
    let mut blockers = [0u16; 16];
    for (i, part) in memory.chunks_exact(PER_SHUTTLE).enumerate() {
        let from = PLACES + usize::from(i == stepped);
        let left = &part[from..from + usize::from(fleet[i].length)];
        // All squares were found to be below 4096; the mask tells the compiler so.
        let met = left.iter().fold(0, |all, &square| all | standing[usize::from(square) & 4095]);
        blockers[i] = met & !(1 << i);
    }
    all_taken_out(&blockers[..fleet.len()])
}

/// Takes out, again and again, each shuttle that can run, until none can be.
pub fn all_taken_out(blockers: &[u16]) -> bool {
    let mut remaining = (1u32 << blockers.len()).wrapping_sub(1) as u16;
    loop {
        let before = remaining;
        for (i, &blockers) in blockers.iter().enumerate() {
            if blockers & remaining == 0 {
                remaining &= !(1 << i);
            }
        }
        if remaining == before {
            return remaining == 0;
        }
    }
}

fn arrive(shuttle: Shuttle, part: &mut [u16]) -> bool {
    if shuttle.moves {
        part[MARK] = 0;
        part[BEHIND] = shuttle.square;
    }
    shuttle.moves
}
