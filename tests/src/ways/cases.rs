//! Random calls of `way`.

use super::{Case, MOST_LEFT};
use crate::plan::{self, Plan};
use crate::reference::field::Field;
use shared::maze;
use shared::random::Random;

/// On a field that is small enough to go through all walks.
pub fn small(random: &mut Random) -> Case {
    let (across, down) = (random.between(1, 4), random.between(1, 4));
    let plan = Plan::of_size(random, across, down);
    on(random, plan)
}

pub fn any(random: &mut Random) -> Case {
    let plan = Plan::random(random);
    on(random, plan)
}

/// On large fields with long corridors, where routes are about as long as they may be.
pub fn long(random: &mut Random) -> Case {
    if random.one_in(3) {
        return winding(random);
    }
    let plan = maze(random);
    on(random, plan)
}

fn on(random: &mut Random, plan: Plan) -> Case {
    let shuttle = random.below_or_past(plan.bays.len());
    let field = plan.field();
    let any_square = |random: &mut Random| random.below(field.walls.len() + 1) as u16;
    let from = match (field.bays.get(shuttle), random.below(20)) {
        (Some(&bay), 0..=11) => bay,
        (_, 12..=18) => near(random, &field, 0, 64),
        _ => any_square(random),
    };
    let count = *random.pick(&[0, 1, 1, 1, 2, 2, 2, 3, 3, 4, 5, 6, 7, 8, 8, 9]);
    let reach = *random.pick(&[1, 3, 8, 20, 64]);
    let mut at = if field.has(from) { from } else { 0 };
    let mut row = Vec::new();
    for place in 0..count {
        at = match (random.below(40), field.bays.get(shuttle)) {
            (0, _) => any_square(random),
            (1, Some(&bay)) => bay,
            // The own bay can be met at the end.
            (2..=9, Some(&bay)) if place + 1 == count => bay,
            (10..=14, _) => at,
            _ => near(random, &field, at, reach),
        };
        row.push(at);
        at = at.min(field.walls.len() as u16 - 1);
    }
    let places = if random.one_in(100) { *random.pick(&[0, 255, 257]) } else { MOST_LEFT };
    Case { shuttle: shuttle as u64, from, row, places, plan }
}

/// An open square at most so many rows and columns away, or the square itself if there is none.
fn near(random: &mut Random, field: &Field, square: u16, reach: usize) -> u16 {
    let (row, column) = field.place(square);
    let is_near = |other: u16| {
        let (other_row, other_column) = field.place(other);
        row.abs_diff(other_row) <= reach && column.abs_diff(other_column) <= reach
    };
    let squares = 0..field.walls.len() as u16;
    let open: Vec<u16> = squares.filter(|&other| is_near(other) && plan::is_open(field, other)).collect();
    if open.is_empty() { square } else { *random.pick(&open) }
}

/// One corridor that winds through all rows, with the bay at its beginning, and a square to go to and back from that
/// makes a route of about 256 squares.
fn winding(random: &mut Random) -> Case {
    let across = random.between(20, 64);
    let down = 2 * random.between(8, 31) + 1;
    let mut walls = vec![1; across * down];
    let mut corridor = Vec::new();
    for row in (0..down).step_by(2) {
        let columns: Vec<usize> = if row % 4 == 0 { (0..across).collect() } else { (0..across).rev().collect() };
        let end = columns[across - 1];
        corridor.extend(columns.iter().map(|column| row * across + column));
        corridor.extend((row + 1 < down).then_some((row + 1) * across + end));
    }
    corridor.iter().for_each(|&square| walls[square] = 0);
    let start = random.between(0, 30);
    let far = (MOST_LEFT + start).div_ceil(2) + random.below(3) - 1;
    let mut row = vec![corridor[far] as u16];
    if random.one_in(2) {
        row.insert(0, corridor[random.between(start, far)] as u16);
    }
    if random.one_in(2) {
        row.push(corridor[random.between(0, far)] as u16);
    }
    let bays = vec![corridor[0] as u16];
    let plan = Plan { across: across as u64, down: down as u64, walls, bays };
    Case { plan, shuttle: 0, from: corridor[start] as u16, row, places: MOST_LEFT }
}

/// A maze with some more openings.
fn maze(random: &mut Random) -> Plan {
    let (across, down) = (random.between(20, 64), random.between(20, 64));
    let mut walls = maze::walls(random, across, down);
    let openings = random.below(across * down / 20);
    maze::open(random, &mut walls, openings);
    Plan::with_bays(random, across, walls)
}
