//! Fields: squares numbered row by row from 0, walls, and a bay for each shuttle.

use shared::call::FieldNumbers;
use std::iter;

/// Numbers that are known to be a field.
#[derive(Clone, Copy)]
pub struct Field<'a> {
    pub across: usize,
    pub down: usize,
    pub walls: &'a [u8],
    pub bays: &'a [u16],
}

#[derive(Clone, Copy, Debug, PartialEq, Eq)]
pub enum Way {
    Left,
    Right,
    Up,
    Down,
}

impl Way {
    pub const ALL: [Way; 4] = [Way::Left, Way::Right, Way::Up, Way::Down];

    /// What it is in a text.
    pub fn letter(self) -> u8 {
        match self {
            Way::Left => b'l',
            Way::Right => b'r',
            Way::Up => b'u',
            Way::Down => b'd',
        }
    }

    pub fn of_letter(letter: u8) -> Option<Way> {
        Way::ALL.into_iter().find(|way| way.letter() == letter)
    }
}

impl<'a> Field<'a> {
    pub fn read(numbers: FieldNumbers<'a>) -> Option<Field<'a>> {
        let field = Field {
            across: side(numbers.across)?,
            down: side(numbers.down)?,
            walls: numbers.walls,
            bays: numbers.bays,
        };
        (field.walls_fit() && field.bays_fit()).then_some(field)
    }

    fn walls_fit(&self) -> bool {
        self.walls.len() == self.across * self.down && self.walls.iter().all(|&mark| mark <= 1)
    }

    fn bays_fit(&self) -> bool {
        let is_own = |(i, bay): (usize, &u16)| self.is_free(*bay) && !self.bays[..i].contains(bay);
        self.bays.len() <= 16 && self.bays.iter().enumerate().all(is_own)
    }

    pub fn has(&self, square: u16) -> bool {
        usize::from(square) < self.across * self.down
    }

    /// A square of the field without a wall.
    pub fn is_free(&self, square: u16) -> bool {
        self.has(square) && self.walls[usize::from(square)] == 0
    }

    /// Row and column.
    pub fn place(&self, square: u16) -> (usize, usize) {
        (usize::from(square) / self.across, usize::from(square) % self.across)
    }

    /// Two squares of the field are beside each other if one lies right of or below the other.
    pub fn beside(&self, one: u16, other: u16) -> bool {
        let ((row, column), (other_row, other_column)) = (self.place(one), self.place(other));
        row.abs_diff(other_row) + column.abs_diff(other_column) == 1
    }

    /// The ways of a route from a square, but for steps that lead to no square beside the one before.
    pub fn ways(&self, from: u16, route: &[u16]) -> impl Iterator<Item = Way> {
        let way = |(from, &to): (u16, &u16)| Way::ALL.into_iter().find(|&way| self.toward(from, way) == Some(to));
        iter::once(from).chain(route.iter().copied()).zip(route).filter_map(way)
    }

    /// The square that lies this way, if that is not over the edge.
    pub fn toward(&self, from: u16, way: Way) -> Option<u16> {
        let (row, column) = self.place(from);
        let (row, column) = match way {
            Way::Left => (row, column.checked_sub(1)?),
            Way::Right => (row, column + 1),
            Way::Up => (row.checked_sub(1)?, column),
            Way::Down => (row + 1, column),
        };
        (row < self.down && column < self.across).then(|| (row * self.across + column) as u16)
    }
}

fn side(length: u64) -> Option<usize> {
    (1..=64).contains(&length).then_some(length as usize)
}
