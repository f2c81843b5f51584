//! Ticks that were worked out by hand.

use super::Pair;
use super::hall::Hall;

use crate::hall::Difference;
use crate::plan::Plan;
use shared::memory::{MARK, PER_SHUTTLE, PLACES, part_of};

pub fn all(pair: &mut Pair) -> Result<(), Difference> {
    takes_turns(pair)?;
    no_shuttles(pair)?;
    starves(pair)
}

fn expect(
    pair: &mut Pair,
    hall: &mut Hall,
    due: &[u8],
    granted: Option<usize>,
    waits: &[u64],
) -> Result<(), Difference> {
    let got = hall.tick(pair, due)?;
    if got == Ok(granted) && hall.waits == waits {
        return Ok(());
    }
    Err(format!("both answer {got:?} with waits {:?}, worked out by hand {granted:?} with {waits:?}", hall.waits))
}

/// Two shuttles that each go one square out and back in a hall where they don't meet, and a third that stays.
fn takes_turns(pair: &mut Pair) -> Result<(), Difference> {
    let mut hall = Hall::started(Plan { across: 3, down: 2, walls: vec![0; 6], bays: vec![0, 1, 2] }, pair);
    expect(pair, &mut hall, &[0, 0, 0], None, &[0, 0, 0])?;
    assert!(hall.order(pair, 1, &[4, 1]) && hall.order(pair, 2, &[5, 2]));
    expect(pair, &mut hall, &[0, 0, 0], Some(1), &[0, 0, 1])?;
    // An arrival that is due of a shuttle that stands is none.
    expect(pair, &mut hall, &[1, 0, 1], Some(2), &[0, 0, 0])?;
    expect(pair, &mut hall, &[0, 0, 0], None, &[0, 0, 0])?;
    // Both come and have waited equally long: the lower one goes first.
    expect(pair, &mut hall, &[0, 1, 1], Some(1), &[0, 0, 1])?;
    expect(pair, &mut hall, &[0, 0, 0], Some(2), &[0, 0, 0])?;
    expect(pair, &mut hall, &[0, 1, 1], None, &[0, 0, 0])?;
    assert!(hall.all_home());
    Ok(())
}

fn no_shuttles(pair: &mut Pair) -> Result<(), Difference> {
    let mut hall = Hall::started(Plan { across: 3, down: 2, walls: vec![0; 6], bays: Vec::new() }, pair);
    expect(pair, &mut hall, &[], None, &[])
}

/// Two shuttles that are ordered again as soon as they are home keep a third in its bay for ever: the hall repeats
/// every eight ticks.
///
/// ```text
/// c..
/// a.b
/// ```
fn starves(pair: &mut Pair) -> Result<(), Difference> {
    let mut hall = Hall::started(Plan { across: 3, down: 2, walls: vec![0; 6], bays: vec![3, 5, 0] }, pair);
    let mut moves = [0; 3];
    let mut left_at_6 = Vec::new();
    for tick in 1..=200 {
        if hall.is_idle(2) {
            assert!(hall.order(pair, 2, &[1, 4, 1, 0]));
        }
        if tick >= 3 && hall.is_idle(1) {
            assert!(hall.order(pair, 1, &[2, 1, 4, 5]));
        }
        if tick == 6 {
            assert!(hall.order(pair, 0, &[4, 1, 2, 1, 4, 3]));
        }
        let answer = hall.tick(pair, &moves)?;
        if answer == Ok(Some(0)) {
            return Err(format!("the third gets a step in tick {tick}"));
        }
        moves = [0, 1, 2].map(|i| u8::from(part_of(&hall.memory, i)[MARK] == 1));
        let state: Vec<u16> = hall.memory.chunks(PER_SHUTTLE).flat_map(|part| part[..PLACES].to_vec()).collect();
        if tick >= 6 && tick % 8 == 6 {
            if left_at_6.is_empty() {
                left_at_6 = state;
            } else if left_at_6 != state {
                return Err(format!("the hall does not repeat: tick {tick}"));
            }
        }
    }
    Ok(())
}
