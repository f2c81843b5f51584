//! Shortest routes once more, by going through all walks of 0 steps, of 1, of 2 and so on, each kind from the first by
//! right, down, left, up. It takes long, and shows on small fields that the search is right.

use super::field::Field;
use super::route::{self, RouteFault};
use super::way::ORDER;

/// The first of the shortest routes that visit the row, if there is one of at most so many steps.
pub fn first_shortest(field: &Field, shuttle: usize, from: u16, row: &[u16], most: usize) -> Option<Vec<u16>> {
    let walks = Walks { field, shuttle, from, row };
    (0..=most).find_map(|steps| walks.first(&mut Vec::new(), steps))
}

struct Walks<'a> {
    field: &'a Field<'a>,
    shuttle: usize,
    from: u16,
    row: &'a [u16],
}

impl Walks<'_> {
    /// The first walk that goes on from this one by so many steps, is a route and visits the row.
    fn first(&self, walk: &mut Vec<u16>, steps: usize) -> Option<Vec<u16>> {
        let verdict = route::judge(self.field, self.shuttle, self.from, walk);
        if let Err(RouteFault::WrongAt(_)) = verdict {
            return None;
        }
        if steps == 0 {
            let met: Vec<u16> = [&[self.from], walk.as_slice()].concat();
            return (verdict.is_ok() && visits(&met, self.row)).then(|| walk.clone());
        }
        let at = *walk.last().unwrap_or(&self.from);
        ORDER.into_iter().filter_map(|way| self.field.toward(at, way)).find_map(|to| {
            walk.push(to);
            let found = self.first(walk, steps - 1);
            walk.pop();
            found
        })
    }
}

/// Whether the row is met in its order along these squares, each at a place not before the last one's.
fn visits(squares: &[u16], row: &[u16]) -> bool {
    let Some((wanted, rest)) = row.split_first() else {
        return true;
    };
    (0..squares.len()).any(|place| squares[place] == *wanted && visits(&squares[place..], rest))
}
