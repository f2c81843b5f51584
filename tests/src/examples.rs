//! Small halls whose answers were worked out by hand.

use crate::hall::{Difference, Hall, Pair};
use crate::plan::Plan;
use crate::reference::fleet::{self, Shuttle};
use crate::reference::safety::{by_all_orders, by_subsets, by_taking_out};
use shared::answer::{Answer, Refusal};
use shared::call::{ARRIVE, EventNumbers, ORDER, STEP};
use shared::memory::{PER_SHUTTLE, part_of_mut};

/// Four across and two down, no walls, shuttle 0's bay 0 and shuttle 1's bay 3.
fn small() -> Plan {
    Plan { across: 4, down: 2, walls: vec![0; 8], bays: vec![0, 3] }
}

struct Row {
    squares: [u16; 2],
    left: [&'static [u16]; 2],
    safe: bool,
    granted: [bool; 2],
}

const ROWS: [Row; 5] = [
    Row { squares: [0, 3], left: [&[1, 2, 1, 0], &[2, 1, 2, 3]], safe: true, granted: [true, true] },
    Row { squares: [1, 3], left: [&[2, 1, 0], &[2, 1, 2, 3]], safe: true, granted: [true, false] },
    Row { squares: [1, 2], left: [&[2, 6, 5, 4, 0], &[1, 5, 6, 7, 3]], safe: false, granted: [false, false] },
    Row { squares: [0, 3], left: [&[1, 2, 6, 5, 4, 0], &[7, 6, 5, 1, 2, 3]], safe: true, granted: [true, true] },
    Row { squares: [2, 7], left: [&[6, 5, 4, 0], &[6, 5, 1, 2, 3]], safe: true, granted: [true, false] },
];

/// Routes of shuttle 0 from its bay, and whether they are one.
const ROUTES: [(&[u16], bool); 12] = [
    (&[1, 0], true),
    (&[], true),
    (&[1, 2, 6, 5, 4, 0], true),
    (&[4, 5, 1, 0], true),
    (&[1, 2, 3, 2, 1, 0], false),
    (&[1, 0, 1, 0], false),
    (&[5, 4, 0], false),
    (&[1, 2], false),
    (&[1, 1, 0], false),
    (&[0], false),
    (&[4, 3, 4, 0], false),
    (&[4, 8, 4, 0], false),
];

pub fn all(pair: &mut Pair) -> Result<(), Difference> {
    ROWS.iter().try_for_each(|row| check_row(pair, row))?;
    ROUTES.iter().try_for_each(|(route, is_one)| check_route(pair, route, *is_one))?;
    holds_both(pair)?;
    wall_in_the_way(pair)?;
    row_ends(pair)?;
    ring_of_four(pair)?;
    no_shuttles(pair)
}

fn expect(
    hall: &mut Hall,
    pair: &mut Pair,
    kind: u64,
    shuttle: u64,
    route: &[u16],
    answer: Answer<bool>,
) -> Result<(), Difference> {
    let got = hall.happen(pair, EventNumbers { kind, shuttle, route })?;
    if got == answer {
        return Ok(());
    }
    Err(format!(
        "both answer {got:?}, worked out by hand {answer:?}: event {kind} of {shuttle} {route:?}\n{}",
        hall.picture()
    ))
}

fn check_row(pair: &mut Pair, row: &Row) -> Result<(), Difference> {
    let mut memory = vec![u16::MAX; 2 * PER_SHUTTLE];
    for i in 0..2 {
        let square = row.squares[i];
        let shuttle = Shuttle { square, moves: false, behind: square, left: row.left[i].to_vec() };
        shuttle.write(part_of_mut(&mut memory, i));
    }
    let fleet = fleet::read(&small().field(), &memory).expect("rows are acceptable memory");
    for found in [by_all_orders(&fleet), by_subsets(&fleet), by_taking_out(&fleet)] {
        if found != row.safe {
            return Err(format!("safe is found to be {found}: {fleet:?}"));
        }
    }
    for i in 0..2 {
        let mut hall = Hall::new(small(), memory.clone());
        expect(&mut hall, pair, STEP, i as u64, &[], Ok(row.granted[i]))?;
    }
    Ok(())
}

fn check_route(pair: &mut Pair, route: &[u16], is_one: bool) -> Result<(), Difference> {
    let mut hall = Hall::started(small(), pair)?;
    expect(&mut hall, pair, ORDER, 0, route, Ok(is_one))
}

/// While a shuttle moves it holds both squares, and the other's route may begin only once the first is on its way
/// home with nothing but its bay left.
fn holds_both(pair: &mut Pair) -> Result<(), Difference> {
    let mut hall = Hall::started(small(), pair)?;
    expect(&mut hall, pair, ORDER, 0, &[1, 2, 1, 0], Ok(true))?;
    expect(&mut hall, pair, ORDER, 1, &[2, 1, 2, 3], Ok(true))?;
    for _ in 0..3 {
        expect(&mut hall, pair, STEP, 0, &[], Ok(true))?;
        expect(&mut hall, pair, STEP, 0, &[], Ok(false))?;
        expect(&mut hall, pair, STEP, 1, &[], Ok(false))?;
        expect(&mut hall, pair, ARRIVE, 0, &[], Ok(true))?;
        expect(&mut hall, pair, ARRIVE, 0, &[], Ok(false))?;
    }
    expect(&mut hall, pair, STEP, 1, &[], Ok(true))
}

fn wall_in_the_way(pair: &mut Pair) -> Result<(), Difference> {
    let mut plan = small();
    plan.walls[5] = 1;
    let mut hall = Hall::started(plan, pair)?;
    expect(&mut hall, pair, ORDER, 0, &[4, 5, 4, 0], Ok(false))?;
    expect(&mut hall, pair, ORDER, 0, &[1, 5, 1, 0], Ok(false))?;
    expect(&mut hall, pair, ORDER, 0, &[1, 2, 6, 2, 1, 0], Ok(true))
}

/// The last square of a row and the first of the next have numbers that follow each other, but aren't beside.
fn row_ends(pair: &mut Pair) -> Result<(), Difference> {
    let mut hall = Hall::started(Plan { bays: vec![0, 7], ..small() }, pair)?;
    expect(&mut hall, pair, ORDER, 0, &[1, 2, 3, 4, 0], Ok(false))?;
    expect(&mut hall, pair, ORDER, 0, &[4, 3, 2, 1, 0], Ok(false))?;
    expect(&mut hall, pair, ORDER, 0, &[1, 2, 3, 2, 6, 5, 4, 0], Ok(true))
}

/// Bays around a block of two by two squares. Each shuttle wants the square that the next one enters; the fourth
/// would close the ring though its square is free.
fn ring_of_four(pair: &mut Pair) -> Result<(), Difference> {
    let walls = b"#.## #... ...# ##.#".iter().filter(|&&sign| sign != b' ');
    let walls = walls.map(|&sign| u8::from(sign == b'#')).collect();
    let mut hall = Hall::started(Plan { across: 4, down: 4, walls, bays: vec![1, 7, 14, 8] }, pair)?;
    let routes: [[u16; 4]; 4] = [[5, 6, 5, 1], [6, 10, 6, 7], [10, 9, 10, 14], [9, 5, 9, 8]];
    for (i, route) in (0..).zip(&routes) {
        expect(&mut hall, pair, ORDER, i, route, Ok(true))?;
    }
    for i in 0..3 {
        expect(&mut hall, pair, STEP, i, &[], Ok(true))?;
        expect(&mut hall, pair, ARRIVE, i, &[], Ok(true))?;
    }
    expect(&mut hall, pair, STEP, 3, &[], Ok(false))?;
    expect(&mut hall, pair, STEP, 0, &[], Ok(false))?;
    expect(&mut hall, pair, STEP, 2, &[], Ok(true))
}

fn no_shuttles(pair: &mut Pair) -> Result<(), Difference> {
    let mut hall = Hall::started(Plan { bays: Vec::new(), ..small() }, pair)?;
    for kind in [ORDER, STEP, ARRIVE] {
        expect(&mut hall, pair, kind, 0, &[], Err(Refusal::Event))?;
    }
    Ok(())
}
