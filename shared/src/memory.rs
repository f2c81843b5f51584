//! Where the numbers of a shuttle stand in memory.

/// Numbers of memory for each shuttle.
pub const PER_SHUTTLE: usize = 260;
/// Where they are, counted from the shuttle's first number.
pub const SQUARE: usize = 0;
pub const MARK: usize = 1;
pub const BEHIND: usize = 2;
pub const LENGTH: usize = 3;
pub const PLACES: usize = 4;
/// The most squares that can be left of a route.
pub const MOST_LEFT: usize = 256;

/// The numbers of memory that belong to one shuttle.
#[inline]
pub fn part_of(memory: &[u16], shuttle: usize) -> &[u16] {
    &memory[PER_SHUTTLE * shuttle..][..PER_SHUTTLE]
}

#[inline]
pub fn part_of_mut(memory: &mut [u16], shuttle: usize) -> &mut [u16] {
    &mut memory[PER_SHUTTLE * shuttle..][..PER_SHUTTLE]
}
