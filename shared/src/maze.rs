//! Mazes.

use crate::random::Random;

/// Corridors between cells at every second row and column that reach every cell.
pub fn walls(random: &mut Random, across: usize, down: usize) -> Vec<u8> {
    let mut walls = vec![1; across * down];
    let mut path = vec![(0usize, 0usize)];
    walls[0] = 0;
    while let Some(&(row, column)) = path.last() {
        let cells =
            [(row, column + 2), (row + 2, column), (row, column.wrapping_sub(2)), (row.wrapping_sub(2), column)];
        let closed =
            |&(row, column): &(usize, usize)| row < down && column < across && walls[row * across + column] == 1;
        let closed: Vec<(usize, usize)> = cells.into_iter().filter(closed).collect();
        if closed.is_empty() {
            path.pop();
            continue;
        }
        let (to_row, to_column) = *random.pick(&closed);
        walls[(row + to_row) / 2 * across + (column + to_column) / 2] = 0;
        walls[to_row * across + to_column] = 0;
        path.push((to_row, to_column));
    }
    walls
}

/// Opens so many squares, of which some may be open already.
pub fn open(random: &mut Random, walls: &mut [u8], openings: usize) {
    for _ in 0..openings {
        walls[random.below(walls.len())] = 0;
    }
}
