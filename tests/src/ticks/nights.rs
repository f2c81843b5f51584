//! Random halls that are driven by ticks.

use super::Pair;
use super::hall::Hall;
use crate::hall::Difference;
use crate::plan::{self, Plan};
use crate::ring::Ring;
use crate::scrambled as memories;
use shared::memory::{LENGTH, MARK, PER_SHUTTLE, SQUARE, part_of};
use shared::random::Random;

/// Orders and ticks for a while, with arrivals due at any time, and then ticks until all are home.
pub fn night(random: &mut Random, pair: &mut Pair) -> Result<(), Difference> {
    let Ring { plan, routes } = Ring::one_in(random, 3);
    let mut hall = Hall::started(plan, pair);
    let often = random.between(1, 6);
    for _ in 0..random.between(10, 60) {
        orders(random, pair, &mut hall, &routes);
        if random.one_in(10) {
            set_waits(random, &mut hall, 7);
        }
        let due = marks(random, &hall, often);
        hall.tick(pair, &due).map(drop)?;
    }
    home(random, pair, &mut hall)
}

/// Memory that is acceptable but that no row of events leads to, and any waits.
pub fn scrambled(random: &mut Random, pair: &mut Pair) -> Result<(), Difference> {
    let plan = Plan::random(random);
    let stepping = random.below(plan.bays.len().max(1));
    let memory = memories::memory(random, &plan, stepping);
    let count = plan.bays.len();
    let mut hall = Hall::new(plan, memory, vec![0; count]);
    for _ in 0..3 {
        let top = if random.one_in(5) { u64::MAX - 1 } else { 7 };
        set_waits(random, &mut hall, top);
        let mut due = marks(random, &hall, 2);
        if random.one_in(20) {
            damage(random, &mut hall, &mut due);
        }
        hall.tick(pair, &due).map(drop)?;
    }
    Ok(())
}

fn orders(random: &mut Random, pair: &mut Pair, hall: &mut Hall, routes: &[Vec<u16>]) {
    for i in 0..hall.plan.bays.len() {
        if !hall.is_idle(i) || !random.one_in(3) {
            continue;
        }
        let route = match routes.get(i) {
            Some(route) if !random.one_in(8) => route.clone(),
            _ => {
                let steps = random.between(0, 12);
                plan::route(random, &hall.plan.field(), i, hall.plan.bays[i], steps)
            }
        };
        hall.order(pair, i, &route);
    }
}

/// A mark for each shuttle, whether it moves or not.
fn marks(random: &mut Random, hall: &Hall, one_in: usize) -> Vec<u8> {
    hall.plan.bays.iter().map(|_| u8::from(random.one_in(one_in))).collect()
}

/// Waits of which many are equal.
fn set_waits(random: &mut Random, hall: &mut Hall, top: u64) {
    hall.waits = hall.waits.iter().map(|_| top - random.below(4) as u64).collect();
}

/// One thing that makes the tick refused, or hardly.
fn damage(random: &mut Random, hall: &mut Hall, due: &mut Vec<u8>) {
    let place = random.below(due.len().max(1));
    match random.below(6) {
        0 => due.push(0),
        1 => hall.waits.push(0),
        2 if !due.is_empty() => drop(due.pop()),
        3 if !due.is_empty() => due[place] = random.between(1, 255) as u8,
        4 if !due.is_empty() => hall.waits[place] = u64::MAX - random.below(2) as u64,
        5 if !due.is_empty() => hall.memory[PER_SHUTTLE * place + SQUARE] = hall.plan.squares() as u16,
        _ => {}
    }
}

/// Gives no more orders. Each arrival comes within so many ticks of its step, and all must be home within the bound.
fn home(random: &mut Random, pair: &mut Pair, hall: &mut Hall) -> Result<(), Difference> {
    let within = *random.pick(&[1, 1, 2, 3, 7]);
    let left: u64 = hall.memory.chunks(PER_SHUTTLE).map(|part| u64::from(part[LENGTH])).sum();
    let bound = (left + 1) * within;
    let draw = |random: &mut Random| random.between(1, within as usize);
    let mut comes_in: Vec<usize> = hall.plan.bays.iter().map(|_| draw(random)).collect();
    let mut ticks = 0;
    while !hall.all_home() {
        ticks += 1;
        if ticks > bound {
            return Err(format!("not home after {bound} ticks, arrivals within {within}"));
        }
        let mut due = Vec::new();
        for (i, ticks_left) in comes_in.iter_mut().enumerate() {
            let moves = part_of(&hall.memory, i)[MARK] == 1;
            *ticks_left -= usize::from(moves);
            due.push(u8::from(*ticks_left == 0));
            if *ticks_left == 0 {
                *ticks_left = draw(random);
            }
        }
        hall.tick(pair, &due).map(drop)?;
    }
    pair.tally.nights += 1;
    pair.tally.largest_share = pair.tally.largest_share.max(100 * ticks / bound);
    Ok(())
}
