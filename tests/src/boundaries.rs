//! Every refusal at its boundary. A good call is changed in one place, or in two at once, and the answer that each
//! change asks for is written beside it, so that the reference is tested here as well.

use crate::change::{self, Change};
use crate::changes;
use crate::hall::{Difference, Hall, Pair};
use crate::plan::Plan;
use shared::answer::{Answer, Refusal};
use shared::call::{ARRIVE, EventNumbers, ORDER, STEP};
use shared::memory::{LENGTH, PER_SHUTTLE, PLACES, part_of_mut};
use std::fmt::Debug;

/// A call in full, to be changed.
#[derive(Clone)]
pub struct Call {
    pub plan: Plan,
    pub memory: Vec<u16>,
    pub kind: u64,
    pub shuttle: u64,
    pub route: Vec<u16>,
}

impl Call {
    /// A call that is not refused: shuttles stand in bays spread over the field, with so many squares left, each
    /// the last of the field.
    pub fn good(size: Size, left: usize, kind: u64) -> Call {
        let Size { across, down, shuttles, margin } = size;
        let squares = across * down;
        let room = squares - 1 - 2 * margin;
        let bay = |i: usize| margin + if shuttles == 1 { 0 } else { i * room / (shuttles - 1) };
        let bays: Vec<u16> = (0..shuttles).map(|i| bay(i) as u16).collect();
        let mut memory = vec![u16::MAX; PER_SHUTTLE * shuttles];
        for (i, &bay) in bays.iter().enumerate() {
            let part = part_of_mut(&mut memory, i);
            part[..PLACES].copy_from_slice(&[bay, 0, bay, left as u16]);
            part[PLACES..PLACES + left].fill((squares - 1) as u16);
        }
        let walls = vec![0; squares];
        let plan = Plan { across: across as u64, down: down as u64, walls, bays };
        Call { plan, memory, kind, shuttle: 0, route: Vec::new() }
    }

    pub fn left(&self) -> usize {
        usize::from(self.memory[LENGTH])
    }

    fn event(&self) -> EventNumbers<'_> {
        EventNumbers { kind: self.kind, shuttle: self.shuttle, route: &self.route }
    }
}

/// The size of a field and how many shuttles it has. Their bays leave so many squares free at either end: without
/// any the first and the last square are bays, and with some a wrong mark can stand there that is on no bay.
#[derive(Clone, Copy)]
pub struct Size {
    across: usize,
    down: usize,
    shuttles: usize,
    margin: usize,
}

pub const fn size(across: usize, down: usize, shuttles: usize, margin: usize) -> Size {
    Size { across, down, shuttles, margin }
}

pub const SIZES: [Size; 11] = [
    size(1, 1, 1, 0),
    size(2, 1, 2, 0),
    size(4, 2, 2, 0),
    size(5, 5, 4, 0),
    size(5, 5, 4, 1),
    size(17, 1, 16, 0),
    size(64, 1, 16, 1),
    size(1, 64, 16, 0),
    size(63, 64, 3, 0),
    size(64, 64, 16, 0),
    size(64, 64, 16, 1),
];

pub fn all(pair: &mut Pair) -> Result<(), Difference> {
    for size in SIZES {
        for left in [0, 1, 255, 256] {
            for kind in [ORDER, STEP, ARRIVE] {
                let good = Call::good(size, left, kind);
                check(pair, &good, &[])?;
                changes::ALL.iter().try_for_each(|change| check(pair, &good, &[change]))?;
            }
        }
    }
    for size in [size(5, 5, 4, 1), size(64, 64, 16, 0)] {
        let good = Call::good(size, 256, STEP);
        change::pairs(changes::ALL).try_for_each(|both| check(pair, &good, &both))?;
    }
    Ok(())
}

/// Makes the changes and both calls. A change that this call leaves no room for makes no case.
fn check(pair: &mut Pair, good: &Call, changes: &[&Change<Call>]) -> Result<(), Difference> {
    let Some((call, changed, refusal)) = change::changed(good, changes) else {
        return Ok(());
    };
    let told = |fault: Difference| format!("{changed}: {fault}");
    let mut hall = Hall::new(call.plan.clone(), call.memory.clone());
    let answer = hall.happen(pair, call.event()).map_err(told)?;
    right(answer, refusal).map_err(told)?;
    let mut hall = Hall::new(call.plan.clone(), call.memory.clone());
    let answer = hall.start(pair).map_err(told)?;
    let looked_at = changes.iter().filter(|change| change.refusal == Some(Refusal::Field) || change.of_length);
    right(answer, looked_at.filter_map(|change| change.refusal).min()).map_err(told)
}

/// Whether the answer is the refusal that the changes ask for, or none if they ask for none.
pub fn right<T: Debug>(answer: Answer<T>, refusal: Option<Refusal>) -> Result<(), Difference> {
    if answer.as_ref().err() == refusal.as_ref() {
        return Ok(());
    }
    Err(format!("both answer {answer:?}, but by the rules the refusal is {refusal:?}"))
}
