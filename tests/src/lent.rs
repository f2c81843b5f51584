//! Numbers that are lent to a call, with guard numbers before and behind them in the same buffer, so that a write
//! outside is seen.

use crate::plan::Plan;
use shared::call::FieldNumbers;
use std::fmt::Debug;

/// An odd count, so that what is lent is not aligned better than its type asks.
const GUARDS: usize = 19;

pub struct Lent<T> {
    buffer: Vec<T>,
    guard: T,
}

impl<T: Copy + PartialEq + Debug> Lent<T> {
    pub fn new(content: &[T], guard: T) -> Lent<T> {
        let mut lent = Lent { buffer: Vec::new(), guard };
        lent.set(content);
        lent
    }

    pub fn set(&mut self, content: &[T]) {
        self.buffer.clear();
        self.buffer.resize(GUARDS, self.guard);
        self.buffer.extend_from_slice(content);
        self.buffer.resize(content.len() + 2 * GUARDS, self.guard);
    }

    pub fn content(&self) -> &[T] {
        &self.buffer[GUARDS..self.buffer.len() - GUARDS]
    }

    pub fn content_mut(&mut self) -> &mut [T] {
        let end = self.buffer.len() - GUARDS;
        &mut self.buffer[GUARDS..end]
    }

    /// What is wrong after a call, if something is: a guard was written, or a number is not as expected.
    pub fn fault(&self, name: &str, expected: &[T]) -> Option<String> {
        let (before, rest) = self.buffer.split_at(GUARDS);
        let (content, behind) = rest.split_at(rest.len() - GUARDS);
        if before.iter().chain(behind).any(|number| *number != self.guard) {
            return Some(format!("a guard number around {name} was written"));
        }
        if content == expected {
            return None;
        }
        let place = content.iter().zip(expected).position(|(is, should)| is != should)?;
        Some(format!("{name} at {place} is {:?}, should be {:?}", content[place], expected[place]))
    }
}

/// The walls and bays of a plan.
pub struct LentField {
    walls: Lent<u8>,
    bays: Lent<u16>,
}

impl LentField {
    /// Guards that would be taken for a wall, a bay or a square of this field would hide a read outside.
    pub fn new(plan: &Plan) -> LentField {
        LentField { walls: Lent::new(&plan.walls, 0xee), bays: Lent::new(&plan.bays, 0xeee1) }
    }

    pub fn numbers<'a>(&'a self, plan: &'a Plan) -> FieldNumbers<'a> {
        FieldNumbers { walls: self.walls.content(), bays: self.bays.content(), ..plan.numbers() }
    }

    pub fn fault(&self, plan: &Plan) -> Option<String> {
        self.walls.fault("walls", &plan.walls).or_else(|| self.bays.fault("bays", &plan.bays))
    }
}

#[cfg(test)]
mod tests {
    use super::*;

    #[test]
    fn a_write_outside_is_seen() {
        for place in [0, GUARDS - 1, GUARDS + 3, 2 * GUARDS + 2] {
            let mut lent = Lent::new(&[1u16, 2, 3], 9);
            assert_eq!(lent.fault("numbers", &[1, 2, 3]), None);
            lent.buffer[place] = 8;
            assert!(lent.fault("numbers", &[1, 2, 3]).is_some_and(|fault| fault.contains("guard")));
        }
    }

    #[test]
    fn another_number_is_seen() {
        let lent = Lent::new(&[1u16, 2, 3], 9);
        assert!(lent.fault("numbers", &[1, 2, 4]).is_some_and(|fault| fault.contains("at 2")));
    }
}
