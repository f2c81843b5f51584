//! Shortest routes by the library's search with all its checks in plain Rust: for each leg the distances spread from
//! its goal until they reach its start, and the walk goes down them.

use crate::plain::{Plain, check_field};
use shared::answer::{Answer, Refusal};
use shared::call::{AskedNumbers, FieldNumbers, MOST_ASKED, Ways};
use shared::memory::MOST_LEFT;

const FAR: u16 = u16::MAX;
const SHUT: u16 = u16::MAX - 1;

/// A number for each square of the largest field.
type Table = [u16; 4096];

#[derive(Clone, Copy)]
struct Floor {
    across: u16,
    squares: u16,
}

#[derive(Clone, Copy)]
struct Leg {
    floor: Floor,
    start: u16,
    goal: u16,
}

impl Ways for Plain {
    fn way(&mut self, field: FieldNumbers, asked: AskedNumbers, route: &mut [u16]) -> Answer<Option<usize>> {
        check_field(field)?;
        let FieldNumbers { across, walls, bays, .. } = field;
        let AskedNumbers { shuttle, from, row } = asked;
        if shuttle >= bays.len() as u64 {
            return Err(Refusal::Event);
        }
        let own = bays[shuttle as usize];
        let inside = row.iter().all(|&square| usize::from(square) < walls.len());
        let free = walls.get(usize::from(from)).is_some_and(|&mark| mark == 0);
        let may_start = free && (from == own || !bays.contains(&from));
        if row.len() > MOST_ASKED || route.len() != MOST_LEFT || !inside || !may_start {
            return Err(Refusal::Way);
        }
        let floor = Floor { across: across as u16, squares: walls.len() as u16 };
        let ground = ground(walls, bays);
        let mut made = [0; MOST_LEFT];
        let length = legs(floor, &ground, own, from, row, &mut made);
        if let Some(length) = length {
            route[..length].copy_from_slice(&made[..length]);
        }
        Ok(length)
    }
}

/// The squares that may be entered on any leg.
fn ground(walls: &[u8], bays: &[u16]) -> Table {
    let mut ground = [SHUT; 4096];
    for (square, &mark) in ground.iter_mut().zip(walls) {
        *square = if mark == 0 { FAR } else { SHUT };
    }
    for &bay in bays {
        ground[usize::from(bay)] = SHUT;
    }
    ground
}

fn legs(floor: Floor, ground: &Table, own: u16, from: u16, row: &[u16], made: &mut [u16; MOST_LEFT]) -> Option<usize> {
    let mut goals = [own; MOST_ASKED + 1];
    goals[..row.len()].copy_from_slice(row);
    let goals = &goals[..=row.len()];
    let (mut start, mut length) = (from, 0);
    for (k, &goal) in goals.iter().enumerate() {
        if goal == start {
            continue;
        }
        // The own bay may be entered if nothing but itself is left.
        let last = goal == own && goals[k..].iter().all(|&next| next == goal);
        if ground[usize::from(goal)] != FAR && !last {
            return None;
        }
        let leg = Leg { floor, start, goal };
        let mut distances = *ground;
        spread(leg, &mut distances);
        let distance = usize::from(distances[usize::from(start)]);
        if distance > MOST_LEFT - length {
            return None;
        }
        walk(leg, &distances, &mut made[length..length + distance]);
        length += distance;
        start = goal;
    }
    Some(length)
}

/// The squares right of, below, left of and above this one; the square itself where there is none.
fn around(floor: Floor, square: u16) -> [u16; 4] {
    let Floor { across, squares } = floor;
    let column = square % across;
    [
        if column + 1 < across { square + 1 } else { square },
        if square + across < squares { square + across } else { square },
        if column > 0 { square - 1 } else { square },
        if square >= across { square - across } else { square },
    ]
}

fn spread(leg: Leg, distances: &mut Table) {
    distances[usize::from(leg.start)] = FAR;
    distances[usize::from(leg.goal)] = 0;
    let mut queue = [0u16; 4096];
    queue[0] = leg.goal;
    let (mut head, mut tail) = (0, 1);
    while head < tail && distances[usize::from(leg.start)] == FAR {
        let square = queue[head];
        head += 1;
        let next = distances[usize::from(square)] + 1;
        for to in around(leg.floor, square) {
            if distances[usize::from(to)] == FAR {
                distances[usize::from(to)] = next;
                queue[tail] = to;
                tail += 1;
            }
        }
    }
}

fn walk(leg: Leg, distances: &Table, made: &mut [u16]) {
    let mut square = leg.start;
    let mut left = made.len() as u16;
    for place in made {
        left -= 1;
        let nearer = around(leg.floor, square).into_iter().find(|&to| distances[usize::from(to)] == left);
        square = nearer.unwrap_or(square);
        *place = square;
    }
}
