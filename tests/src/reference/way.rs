//! The shortest route through a row of squares, and of these the first by right, down, left, up.

use super::field::{Field, Way};
use shared::answer::{Answer, Refusal};
use shared::call::{AskedNumbers, FieldNumbers, MOST_ASKED};
use shared::memory::MOST_LEFT;

/// The order in which routes of one length are compared step by step.
pub const ORDER: [Way; 4] = [Way::Right, Way::Down, Way::Left, Way::Up];

/// What came of a call that is not refused.
#[derive(Clone, Copy, Debug, PartialEq, Eq)]
pub enum Outcome {
    Found(usize),
    /// No route of any length visits the row.
    NoRoute,
    /// There are routes, but none of at most 256 squares.
    TooLong,
}

impl Outcome {
    pub fn length(self) -> Option<usize> {
        match self {
            Outcome::Found(length) => Some(length),
            Outcome::NoRoute | Outcome::TooLong => None,
        }
    }
}

pub fn outcome(numbers: FieldNumbers, asked: AskedNumbers, route: &mut [u16]) -> Answer<Outcome> {
    let field = Field::read(numbers).ok_or(Refusal::Field)?;
    let shuttle = usize::try_from(asked.shuttle).ok().filter(|&i| i < field.bays.len()).ok_or(Refusal::Event)?;
    let may_start = field.is_free(asked.from) && others_bay(&field, shuttle, asked.from).is_none();
    let row_fits = asked.row.len() <= MOST_ASKED && asked.row.iter().all(|&square| field.has(square));
    if !may_start || !row_fits || route.len() != MOST_LEFT {
        return Err(Refusal::Way);
    }
    Ok(match first_shortest(&field, shuttle, asked.from, asked.row) {
        Some(found) if found.len() <= MOST_LEFT => {
            route[..found.len()].copy_from_slice(&found);
            Outcome::Found(found.len())
        }
        Some(_) => Outcome::TooLong,
        None => Outcome::NoRoute,
    })
}

/// The shuttle other than this one whose bay the square is.
fn others_bay(field: &Field, shuttle: usize, square: u16) -> Option<usize> {
    field.bays.iter().position(|&bay| bay == square).filter(|&owner| owner != shuttle)
}

/// Where a shuttle can be, with how many squares of the row it has met by then.
#[derive(Clone, Copy)]
struct Reached {
    square: u16,
    met: usize,
    /// From which of those reached before.
    before: Option<usize>,
}

/// The first of the shortest routes of any length. What is reached is gone on from in the order in which it was
/// reached, by right, down, left, up; so all that is reached in so many steps stands in the order of the first routes
/// to it, and the first route is the one by which it was reached.
pub fn first_shortest(field: &Field, shuttle: usize, from: u16, row: &[u16]) -> Option<Vec<u16>> {
    let own = field.bays[shuttle];
    let mut seen = vec![false; field.walls.len() * (row.len() + 1)];
    let mut reached = vec![Reached { square: from, met: meet(row, 0, from), before: None }];
    let mut next = 0;
    while let Some(&at) = reached.get(next) {
        if at.square == own && at.met == row.len() {
            return Some(squares(&reached, next));
        }
        for to in ORDER.into_iter().filter_map(|way| field.toward(at.square, way)) {
            let met = meet(row, at.met, to);
            let enters = if to == own { met == row.len() } else { !field.bays.contains(&to) };
            let place = usize::from(to) * (row.len() + 1) + met;
            if field.is_free(to) && enters && !seen[place] {
                seen[place] = true;
                reached.push(Reached { square: to, met, before: Some(next) });
            }
        }
        next += 1;
    }
    None
}

/// How many squares of the row are met once the shuttle is on this square too.
fn meet(row: &[u16], met: usize, square: u16) -> usize {
    met + row[met..].iter().take_while(|&&wanted| wanted == square).count()
}

fn squares(reached: &[Reached], end: usize) -> Vec<u16> {
    let mut squares = Vec::new();
    let mut at = reached[end];
    while let Some(before) = at.before {
        squares.push(at.square);
        at = reached[before];
    }
    squares.reverse();
    squares
}
