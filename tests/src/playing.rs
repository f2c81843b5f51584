//! Halls that are played from the start by random orders, steps and arrivals, and then to the end.

use crate::hall::{Difference, Hall, Pair};
use crate::plan;
use crate::ring::Ring;
use shared::call::{ARRIVE, EventNumbers, ORDER, STEP};
use shared::memory::{BEHIND, LENGTH, MARK, SQUARE, part_of};
use shared::random::Random;

/// Where routes come from: random walks of at most so many steps, or for the most part the routes of a ring.
enum Routes {
    Walks(usize),
    Ring(Vec<Vec<u16>>),
}

/// Plays one hall. What must never be is counted in the tally: collisions, being stuck, not coming home.
pub fn hall(random: &mut Random, pair: &mut Pair) -> Result<(), Difference> {
    let Ring { plan, routes } = Ring::one_in(random, 4);
    let routes =
        if routes.is_empty() { Routes::Walks(*random.pick(&[3, 6, 12, 30, 128])) } else { Routes::Ring(routes) };
    let mut hall = Hall::started(plan, pair)?;
    pair.tally.halls += 1;
    for _ in 0..random.between(20, 200) {
        event(random, pair, &mut hall, &routes)?;
        pair.tally.collisions += u64::from(collision(&hall));
    }
    to_the_end(random, pair, &mut hall)
}

fn event(random: &mut Random, pair: &mut Pair, hall: &mut Hall, routes: &Routes) -> Result<(), Difference> {
    let count = hall.plan.bays.len();
    let shuttle = if random.one_in(200) { random.below(20) } else { random.below(count.max(1)) };
    let mut kind = random.below(3) as u64;
    if shuttle < count && !random.one_in(4) {
        kind = useful_kind(hall, shuttle);
    }
    let needs_route = kind == ORDER && shuttle < count;
    let route = if needs_route { random_route(random, hall, shuttle, routes) } else { Vec::new() };
    hall.happen(pair, EventNumbers { kind, shuttle: shuttle as u64, route: &route }).map(drop)
}

/// The kind of event that can happen to the shuttle, unless others are in its way.
fn useful_kind(hall: &Hall, shuttle: usize) -> u64 {
    let part = part_of(hall.memory(), shuttle);
    match (part[MARK], part[LENGTH]) {
        (1, _) => ARRIVE,
        (_, 0) => ORDER,
        _ => STEP,
    }
}

fn random_route(random: &mut Random, hall: &Hall, shuttle: usize, routes: &Routes) -> Vec<u16> {
    let field = hall.plan.field();
    let from = part_of(hall.memory(), shuttle)[SQUARE];
    let longest = match routes {
        Routes::Ring(routes) if !random.one_in(8) => return routes[shuttle].clone(),
        Routes::Ring(_) => 12,
        Routes::Walks(longest) => *longest,
    };
    let steps = random.between(0, longest);
    let mut route = plan::route(random, &field, shuttle, from, steps);
    if random.one_in(4) {
        plan::damage(random, &field, from, &mut route);
    }
    route
}

/// Gives no more orders. As long as something is left, something must move or be granted, and all must come home.
fn to_the_end(random: &mut Random, pair: &mut Pair, hall: &mut Hall) -> Result<(), Difference> {
    let mut turn: Vec<usize> = (0..hall.plan.bays.len()).collect();
    while turn.iter().any(|&i| is_busy(hall, i)) {
        random.shuffle(&mut turn);
        let mut possible = false;
        for &i in &turn {
            possible |= one_event_further(random, pair, hall, i)?;
        }
        if !possible {
            pair.tally.stuck += 1;
            break;
        }
    }
    let home = turn.iter().all(|&i| part_of(hall.memory(), i)[SQUARE] == hall.plan.bays[i] && !is_busy(hall, i));
    pair.tally.not_home += u64::from(!home);
    Ok(())
}

fn is_busy(hall: &Hall, shuttle: usize) -> bool {
    let part = part_of(hall.memory(), shuttle);
    part[MARK] == 1 || part[LENGTH] > 0
}

/// Whether the shuttle moves, or its step was granted. An arrival may come late.
fn one_event_further(random: &mut Random, pair: &mut Pair, hall: &mut Hall, i: usize) -> Result<bool, Difference> {
    if !is_busy(hall, i) {
        return Ok(false);
    }
    let kind = useful_kind(hall, i);
    if kind == ARRIVE && random.one_in(3) {
        return Ok(true);
    }
    let answer = hall.happen(pair, EventNumbers { kind, shuttle: i as u64, route: &[] })?;
    pair.tally.collisions += u64::from(collision(hall));
    Ok(answer == Ok(true))
}

/// Whether two shuttles hold a square together.
fn collision(hall: &Hall) -> bool {
    let mut held: Vec<u16> = Vec::with_capacity(32);
    for i in 0..hall.plan.bays.len() {
        let part = part_of(hall.memory(), i);
        let own = [part[SQUARE], part[BEHIND]];
        let own = if part[MARK] == 1 { &own[..] } else { &own[..1] };
        if own.iter().any(|square| held.contains(square)) {
            return true;
        }
        held.extend(own);
    }
    false
}
