//! The events that are measured.

use shared::call::{ARRIVE, FieldNumbers, ORDER, STEP};
use shared::memory::{LENGTH, MARK, PER_SHUTTLE, PLACES, SQUARE, part_of_mut};

pub struct Event {
    pub name: String,
    pub across: u64,
    pub down: u64,
    pub walls: Vec<u8>,
    pub bays: Vec<u16>,
    pub memory: Vec<u16>,
    pub kind: u64,
    pub shuttle: usize,
    pub route: Vec<u16>,
    /// What every contender must answer.
    pub happens: bool,
}

/// Squares of the band of four rows that each shuttle has for itself in the largest hall.
const BAND: usize = 256;

/// A route of 256 squares through all of a band and back into its first square: right along the first row, and back
/// through the other three up and down.
fn round(band: usize) -> Vec<u16> {
    let out = (1..64).map(|column| (0, column));
    let back = (0..64).rev().flat_map(|column: usize| {
        let row = move |k: usize| if column % 2 == 1 { k } else { 4 - k };
        (1..4).map(move |k| (row(k), column))
    });
    let squares = out.chain(back).chain([(0, 0)]);
    squares.map(|(row, column)| (BAND * band + 64 * row + column) as u16).collect()
}

impl Event {
    /// The largest hall with so many shuttles, each in its band with so many squares left, and a step of the first.
    pub fn free(name: &str, shuttles: usize, left: usize) -> Event {
        let bays: Vec<u16> = (0..shuttles).map(|band| (BAND * band) as u16).collect();
        let mut memory = vec![u16::MAX; PER_SHUTTLE * shuttles];
        for (band, (part, bay)) in memory.chunks_exact_mut(PER_SHUTTLE).zip(&bays).enumerate() {
            let route = round(band);
            let (done, rest) = route.split_at(route.len() - left);
            let square = *done.last().unwrap_or(bay);
            part[..PLACES].copy_from_slice(&[square, 0, square, left as u16]);
            part[PLACES..PLACES + left].copy_from_slice(rest);
        }
        Event {
            name: name.to_string(),
            across: 64,
            down: 64,
            walls: vec![0; 4096],
            bays,
            memory,
            kind: STEP,
            shuttle: 0,
            route: Vec::new(),
            happens: true,
        }
    }

    pub fn largest(name: &str) -> Event {
        Event::free(name, 16, 256)
    }

    pub fn field(&self) -> FieldNumbers<'_> {
        FieldNumbers { across: self.across, down: self.down, walls: &self.walls, bays: &self.bays }
    }

    pub fn of_shuttle(&mut self, shuttle: usize) -> &mut [u16] {
        part_of_mut(&mut self.memory, shuttle)
    }

    /// Puts the other's square among what is left to this one, in the middle. Such memory is acceptable though no
    /// row of events leads to it, and the work is the same.
    pub fn block(&mut self, this: usize, other: u16) {
        self.of_shuttle(this)[PLACES + 128] = other;
    }

    /// From shuttle `first` on each is blocked by the next one only, so that a round takes out just the last.
    fn chain(mut self, first: usize) -> Event {
        for i in first..15 {
            let next = self.of_shuttle(i + 1)[SQUARE];
            self.block(i, next);
        }
        self
    }
}

fn held() -> Event {
    let mut case = Event::largest("step refused, square held");
    let next = case.of_shuttle(0)[PLACES];
    case.of_shuttle(1)[SQUARE] = next;
    case.happens = false;
    case
}

fn not_safe() -> Event {
    let mut case = Event::largest("step refused, unsafe after 14 rounds").chain(2);
    let (after, other) = (case.of_shuttle(0)[PLACES], case.of_shuttle(1)[SQUARE]);
    case.block(0, other);
    case.block(1, after);
    case.happens = false;
    case
}

fn order() -> Event {
    let mut case = Event::largest("order of 256 squares");
    case.of_shuttle(0)[LENGTH] = 0;
    Event { kind: ORDER, route: round(0), ..case }
}

fn arrival() -> Event {
    let mut case = Event::largest("arrival");
    case.of_shuttle(0)[MARK] = 1;
    Event { kind: ARRIVE, ..case }
}

/// Two shuttles on a field of four across and two down.
pub fn small() -> Event {
    let mut case = Event::free("small hall: step granted", 2, 4);
    case.of_shuttle(0)[..8].copy_from_slice(&[0, 0, 0, 4, 1, 2, 1, 0]);
    case.of_shuttle(1)[..8].copy_from_slice(&[3, 0, 3, 4, 2, 1, 2, 3]);
    Event { across: 4, down: 2, walls: vec![0; 8], bays: vec![0, 3], ..case }
}

pub fn all() -> Vec<Event> {
    let mut cases = vec![
        Event::largest("step granted, free hall"),
        Event::largest("step granted after 16 rounds").chain(0),
        held(),
        not_safe(),
        order(),
        arrival(),
        small(),
    ];
    cases.extend(
        [1, 2, 4, 8, 16, 32, 64, 128, 256]
            .map(|left| Event::free(&format!("step granted, squares left in all: {}", 16 * left), 16, left)),
    );
    cases
        .extend([1, 2, 4, 8, 12, 16].map(|count| Event::free(&format!("step granted, shuttles: {count}"), count, 256)));
    cases
}
