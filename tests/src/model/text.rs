//! Lines, and the field that a text begins with.

use super::Refusal;
use crate::plan::Plan;

/// The lines before the first empty one, and those behind it.
pub struct Lines<'a> {
    pub rows: Vec<&'a [u8]>,
    pub rest: Vec<&'a [u8]>,
}

impl<'a> Lines<'a> {
    pub fn of(input: &'a [u8]) -> Lines<'a> {
        let mut rows = lines(input);
        let end = rows.iter().position(|line| line.is_empty()).unwrap_or(rows.len());
        let rest = rows.split_off(end);
        Lines { rows, rest: rest.into_iter().skip(1).collect() }
    }

    /// The lines of the rest with their numbers in the whole input.
    pub fn numbered_rest(&self) -> impl Iterator<Item = (usize, &'a [u8])> {
        let first = self.rows.len() + 1;
        self.rest.iter().enumerate().map(move |(k, &line)| (first + k, line))
    }
}

/// A line ends at a line feed, and one carriage return right before it belongs to the end. What follows the last
/// line feed is a line if it has a byte.
pub fn lines(input: &[u8]) -> Vec<&[u8]> {
    let mut pieces: Vec<&[u8]> = input.split(|&byte| byte == b'\n').collect();
    let last = pieces.pop().unwrap_or_default();
    let ended = pieces.into_iter().map(|piece| piece.strip_suffix(b"\r").unwrap_or(piece));
    ended.chain((!last.is_empty()).then_some(last)).collect()
}

/// A field that can't be read is told before one that can be and is none.
pub fn read_plan(rows: &[&[u8]]) -> Result<Plan, Refusal> {
    let mut bays: [Option<u16>; 16] = [None; 16];
    let mut square = 0usize;
    for (number, row) in rows.iter().enumerate() {
        let of_one_length = row.len() == rows[0].len();
        if !of_one_length || !read_row(row, &mut square, &mut bays) {
            return Err(Refusal::Unreadable(number));
        }
    }
    if let Some(number) = rows.iter().position(|row| row.iter().any(|&sign| lacks_forerunner(sign, &bays))) {
        return Err(Refusal::Unreadable(number));
    }
    let across = rows.first().map_or(0, |row| row.len());
    if rows.is_empty() || across > 64 || rows.len() > 64 {
        return Err(Refusal::NoField);
    }
    let walls = rows.iter().flat_map(|row| row.iter().map(|&sign| u8::from(sign == b'#'))).collect();
    let bays = bays.into_iter().flatten().collect();
    Ok(Plan { across: across as u64, down: rows.len() as u64, walls, bays })
}

/// False if a sign is none of a field, or a letter that stood before.
fn read_row(row: &[u8], square: &mut usize, bays: &mut [Option<u16>; 16]) -> bool {
    for &sign in row {
        let own = super::shuttle(sign);
        match own {
            Some(i) if bays[i].is_none() => bays[i] = Some((*square).min(usize::from(u16::MAX)) as u16),
            None if sign == b'.' || sign == b'#' => {}
            _ => return false,
        }
        *square += 1;
    }
    true
}

fn lacks_forerunner(sign: u8, bays: &[Option<u16>; 16]) -> bool {
    super::shuttle(sign).is_some_and(|i| i > 0 && bays[i - 1].is_none())
}
