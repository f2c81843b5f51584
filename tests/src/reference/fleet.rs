//! Shuttles, and how memory holds them.

use super::field::Field;
use shared::memory::{BEHIND, LENGTH, MARK, MOST_LEFT, PER_SHUTTLE, PLACES, SQUARE, part_of};

#[derive(Clone, Debug, PartialEq, Eq)]
pub struct Shuttle {
    pub square: u16,
    pub moves: bool,
    pub behind: u16,
    /// What is left of its route, the next square first.
    pub left: Vec<u16>,
}

impl Shuttle {
    pub fn in_bay(bay: u16) -> Shuttle {
        Shuttle { square: bay, moves: false, behind: bay, left: Vec::new() }
    }

    /// It holds the square it is on, and while it moves the one behind as well.
    pub fn holds(&self, square: u16) -> bool {
        self.square == square || (self.moves && self.behind == square)
    }

    fn read(field: &Field, part: &[u16]) -> Option<Shuttle> {
        let length = usize::from(part[LENGTH]);
        if part[MARK] > 1 || length > MOST_LEFT {
            return None;
        }
        let shuttle = Shuttle {
            square: part[SQUARE],
            moves: part[MARK] == 1,
            behind: part[BEHIND],
            left: part[PLACES..PLACES + length].to_vec(),
        };
        let inside = field.has(shuttle.square)
            && field.has(shuttle.behind)
            && shuttle.left.iter().all(|&square| field.has(square));
        inside.then_some(shuttle)
    }

    /// Writes the four numbers and what is left; places that aren't needed stay as they are.
    pub fn write(&self, part: &mut [u16]) {
        part[SQUARE] = self.square;
        part[MARK] = u16::from(self.moves);
        part[BEHIND] = self.behind;
        part[LENGTH] = self.left.len() as u16;
        part[PLACES..PLACES + self.left.len()].copy_from_slice(&self.left);
    }
}

/// All shuttles of the field, if memory is acceptable.
pub fn read(field: &Field, memory: &[u16]) -> Option<Vec<Shuttle>> {
    if memory.len() != PER_SHUTTLE * field.bays.len() {
        return None;
    }
    (0..field.bays.len()).map(|i| Shuttle::read(field, part_of(memory, i))).collect()
}
