//! Memory that is acceptable but that no row of events leads to: two shuttles on one square, a square behind that
//! lies far away, routes that are none. The answers are defined there too.

use crate::hall::{Difference, Hall, Pair};
use crate::plan::{self, Plan};
use crate::reference::fleet::Shuttle;
use shared::call::{ARRIVE, EventNumbers, ORDER, STEP};
use shared::memory::{BEHIND, LENGTH, MARK, MOST_LEFT, PER_SHUTTLE, PLACES, SQUARE, part_of, part_of_mut};
use shared::random::Random;

/// Who is in whose way once the chosen shuttle has made its step.
#[derive(Clone, Copy)]
enum Shape {
    /// Routes of any squares.
    Any,
    /// Some order exists, in a random permutation of the shuttles.
    Ordered,
    /// A ring through so many shuttles, and nothing else.
    Ring(usize),
}

pub fn hall(random: &mut Random, pair: &mut Pair) -> Result<(), Difference> {
    let mut hall = Hall::blank(Plan::random(random));
    pair.tally.halls += 1;
    for _ in 0..3 {
        let count = hall.plan.bays.len();
        let stepping = random.below(count.max(1));
        let memory = memory(random, &hall.plan, stepping);
        hall.set_memory(memory);
        hall.happen(pair, EventNumbers { kind: STEP, shuttle: stepping as u64, route: &[] }).map(drop)?;
        for _ in 0..random.between(1, 6) {
            event(random, pair, &mut hall)?;
        }
        if count > 0 {
            order_to_idle(random, pair, &mut hall)?;
        }
        if random.one_in(3) {
            let damaged = damaged(random, &hall);
            hall.set_memory(damaged);
            event(random, pair, &mut hall)?;
        }
    }
    Ok(())
}

fn event(random: &mut Random, pair: &mut Pair, hall: &mut Hall) -> Result<(), Difference> {
    let count = hall.plan.bays.len();
    let shuttle = random.below_or_past(count);
    let kind = *random.pick(&[ORDER, ORDER, STEP, STEP, ARRIVE]);
    let route = match (kind, random.below(20)) {
        (_, 0) => any_route(random),
        (ORDER, _) if shuttle < count => home_route(random, hall, shuttle),
        _ => Vec::new(),
    };
    hall.happen(pair, EventNumbers { kind, shuttle: shuttle as u64, route: &route }).map(drop)
}

/// Lets one shuttle stand with nothing left on the square where it is, and gives it orders.
fn order_to_idle(random: &mut Random, pair: &mut Pair, hall: &mut Hall) -> Result<(), Difference> {
    let shuttle = random.below(hall.plan.bays.len());
    let mut memory = hall.memory().to_vec();
    let part = part_of_mut(&mut memory, shuttle);
    part[MARK] = 0;
    part[LENGTH] = 0;
    if random.one_in(2) {
        part[SQUARE] = hall.plan.bays[shuttle];
    }
    hall.set_memory(memory);
    for _ in 0..3 {
        let route = home_route(random, hall, shuttle);
        hall.happen(pair, EventNumbers { kind: ORDER, shuttle: shuttle as u64, route: &route }).map(drop)?;
    }
    Ok(())
}

/// Squares up to and past both limits of a route.
fn any_route(random: &mut Random) -> Vec<u16> {
    let length = *random.pick(&[1, 2, 255, 256, 257, 300]);
    let top = *random.pick(&[64, 4096, 4096, 4097, 65536]);
    (0..length).map(|_| random.below(top) as u16).collect()
}

fn home_route(random: &mut Random, hall: &Hall, shuttle: usize) -> Vec<u16> {
    let field = hall.plan.field();
    let from = match part_of(hall.memory(), shuttle)[SQUARE] {
        square if field.has(square) => square,
        _ => field.bays[shuttle],
    };
    let steps = random.between(0, 10);
    let mut route = plan::route(random, &field, shuttle, from, steps);
    if random.one_in(3) {
        plan::damage(random, &field, from, &mut route);
    }
    route
}

pub fn memory(random: &mut Random, plan: &Plan, stepping: usize) -> Vec<u16> {
    let mut memory = vec![u16::MAX; PER_SHUTTLE * plan.bays.len()];
    for (i, shuttle) in fleet(random, plan, stepping).iter().enumerate() {
        shuttle.write(part_of_mut(&mut memory, i));
    }
    memory
}

/// Shuttles such that the shape comes about by the step of one of them.
fn fleet(random: &mut Random, plan: &Plan, stepping: usize) -> Vec<Shuttle> {
    let count = plan.bays.len();
    let squares = on_squares(random, plan);
    let shape = match random.below(3) {
        0 => Shape::Any,
        1 => Shape::Ordered,
        _ => Shape::Ring(random.between(1, count.max(1))),
    };
    let ways = in_the_way(random, count, shape);
    let longest = *random.pick(&[2, 5, 20, 255]);
    let mut fleet: Vec<Shuttle> = (0..count)
        .map(|i| {
            let wanted: Option<Vec<u16>> = ways.as_ref().map(|ways| ways[i].iter().map(|&j| squares[j]).collect());
            let left = left(random, &squares, plan.squares(), wanted, longest);
            any_shuttle(random, plan, squares[i], left)
        })
        .collect();
    if let Some(shuttle) = fleet.get_mut(stepping) {
        before_step(random, plan, shuttle);
    }
    fleet
}

fn on_squares(random: &mut Random, plan: &Plan) -> Vec<u16> {
    let pool = if random.one_in(3) { plan.squares().min(12) } else { plan.squares() };
    let mut squares: Vec<u16> = (0..plan.squares() as u16).collect();
    random.shuffle(&mut squares);
    let twice = random.one_in(3) || plan.squares() < plan.bays.len();
    (0..plan.bays.len()).map(|i| if twice { squares[random.below(pool)] } else { squares[i] }).collect()
}

/// For each shuttle, those whose squares are to be among what is left to it; nothing if any squares will do.
fn in_the_way(random: &mut Random, count: usize, shape: Shape) -> Option<Vec<Vec<usize>>> {
    let mut order: Vec<usize> = (0..count).collect();
    random.shuffle(&mut order);
    let mut ways = vec![Vec::new(); count];
    match shape {
        Shape::Any => return None,
        Shape::Ordered => {
            let share = random.between(1, 6);
            for (place, &i) in order.iter().enumerate() {
                ways[i] = order[..place].iter().copied().filter(|_| random.one_in(share)).collect();
            }
        }
        Shape::Ring(size) => {
            let ring = &order[..size.min(count)];
            for (place, &i) in ring.iter().enumerate() {
                ways[i].push(ring[(place + 1) % ring.len()]);
            }
        }
    }
    Some(ways)
}

/// What is left to a shuttle: the wanted squares among squares that nobody is on, or any squares.
fn left(random: &mut Random, on: &[u16], squares: usize, wanted: Option<Vec<u16>>, longest: usize) -> Vec<u16> {
    let length = random.between(0, longest);
    let any = wanted.is_none();
    let mut left: Vec<u16> =
        (0..length).map(|_| random.below(squares) as u16).filter(|square| any || !on.contains(square)).collect();
    for square in wanted.unwrap_or_default() {
        if left.len() < MOST_LEFT - 1 {
            left.insert(random.below(left.len() + 1), square);
        }
    }
    left
}

fn any_shuttle(random: &mut Random, plan: &Plan, square: u16, left: Vec<u16>) -> Shuttle {
    let behind = if random.one_in(3) { square } else { random.below(plan.squares()) as u16 };
    Shuttle { square, moves: random.one_in(3), behind, left }
}

/// Takes the step back that led to this shuttle's square.
fn before_step(random: &mut Random, plan: &Plan, shuttle: &mut Shuttle) {
    shuttle.left.insert(0, shuttle.square);
    shuttle.square = random.below(plan.squares()) as u16;
    shuttle.moves = random.one_in(20);
}

/// The hall's memory with one number that may not be there, or of another length.
fn damaged(random: &mut Random, hall: &Hall) -> Vec<u16> {
    let mut memory = hall.memory().to_vec();
    let outside = *random.pick(&[hall.plan.squares() as u16, u16::MAX]);
    let count = hall.plan.bays.len();
    if count == 0 || random.one_in(6) {
        let length = memory.len() + *random.pick(&[1, 2, PER_SHUTTLE]);
        memory.resize(length, 0);
        return memory;
    }
    let part = part_of_mut(&mut memory, random.below(count));
    let length = usize::from(part[LENGTH]);
    match random.below(6) {
        0 => part[SQUARE] = outside,
        1 => part[MARK] = random.between(2, 65535) as u16,
        2 => part[BEHIND] = outside,
        3 => part[LENGTH] = random.between(257, 65535) as u16,
        4 if length > 0 => part[PLACES + random.below(length)] = outside,
        // What stands behind the needed places is never read, so that this is acceptable.
        _ => part[PLACES + length..].fill(outside),
    }
    memory
}
