//! Every refusal of `way` at its boundary, with the refusal that each change of a good call asks for written beside it.

use super::{Case, MOST_LEFT, Pair};
use crate::boundaries::{Call, SIZES, right, size};
use crate::change::{self, Change, good, refused};
use crate::changes;
use crate::hall::Difference;
use shared::answer::Refusal::{self, Event, Way};
use shared::call::STEP;

const CHANGES: &[Change<Case>] = &[
    good("the last shuttle", |c| start_in_bay(c, c.plan.bays.len() - 1)),
    refused(Event, "a shuttle past the last", |c| shuttle(c, c.plan.bays.len() as u64)),
    refused(Event, "shuttle 16", |c| shuttle(c, 16)),
    refused(Event, "shuttle 256", |c| shuttle(c, 256)),
    refused(Event, "shuttle 65536", |c| shuttle(c, 65536)),
    refused(Event, "shuttle 2^32", |c| shuttle(c, 1 << 32)),
    refused(Event, "the highest shuttle", |c| shuttle(c, u64::MAX)),
    good("no square", |c| row(c, 0, 0)),
    good("eight squares", |c| row(c, 8, 0)),
    refused(Way, "nine squares", |c| row(c, 9, 0)),
    refused(Way, "264 squares", |c| row(c, 264, 0)),
    refused(Way, "65536 squares", |c| row(c, 65536, 0)),
    good("the last square of the field", |c| row(c, 8, c.plan.walls.len() as u16 - 1)),
    refused(Way, "one square just outside", |c| row(c, 1, c.plan.walls.len() as u16)),
    refused(Way, "the first square just outside", |c| row(c, 8, 0) && outside(c, 0)),
    refused(Way, "the last square just outside", |c| row(c, 8, 0) && outside(c, 7)),
    refused(Way, "one square far outside", |c| row(c, 1, u16::MAX)),
    refused(Way, "the start just outside", |c| from(c, c.plan.walls.len() as u16)),
    refused(Way, "the start far outside", |c| from(c, u16::MAX)),
    refused(Way, "the start a wall", |c| free(c).is_some_and(|square| wall(c, square) && from(c, square))),
    good("the start a free square", |c| free(c).is_some_and(|square| from(c, square))),
    refused(Way, "the start the last one's bay", |c| {
        c.plan.bays.len() > 1 && from(c, c.plan.bays[c.plan.bays.len() - 1])
    }),
    refused(Way, "the start the second one's bay", |c| c.plan.bays.len() > 1 && from(c, c.plan.bays[1])),
    refused(Way, "the start the first one's bay", |c| c.plan.bays.len() > 1 && shuttle(c, 1)),
    refused(Way, "no place", |c| places(c, 0)),
    refused(Way, "255 places", |c| places(c, 255)),
    refused(Way, "257 places", |c| places(c, 257)),
    refused(Way, "512 places", |c| places(c, 512)),
    refused(Way, "65792 places", |c| places(c, 65536 + 256)),
];

pub fn all(pair: &mut Pair) -> Result<(), Difference> {
    for size in SIZES {
        let good = good_case(&Call::good(size, 0, STEP));
        check(pair, &good, &[])?;
        CHANGES.iter().try_for_each(|change| check(pair, &good, &[change]))?;
    }
    for size in [size(5, 5, 4, 1), size(64, 64, 16, 0)] {
        let good = good_case(&Call::good(size, 0, STEP));
        change::pairs(CHANGES).try_for_each(|both| check(pair, &good, &both))?;
    }
    fields(pair)
}

/// The changes of the field that any call is refused for, alone and with another one of what is asked.
fn fields(pair: &mut Pair) -> Result<(), Difference> {
    for size in SIZES {
        for of_field in changes::ALL.iter().filter(|change| change.refusal == Some(Refusal::Field)) {
            let Some((call, changed, refusal)) = change::changed(&Call::good(size, 0, STEP), &[of_field]) else {
                continue;
            };
            let told = |fault: Difference| format!("{changed}: {fault}");
            let mut case = good_case(&call);
            right(pair.ask(&case).map_err(told)?, refusal).map_err(told)?;
            case.shuttle = u64::MAX;
            case.places = 0;
            right(pair.ask(&case).map_err(told)?, refusal).map_err(told)?;
        }
    }
    Ok(())
}

fn check(pair: &mut Pair, good: &Case, changes: &[&Change<Case>]) -> Result<(), Difference> {
    let Some((case, changed, refusal)) = change::changed(good, changes) else {
        return Ok(());
    };
    let told = |fault: Difference| format!("{changed}: {fault}");
    right(pair.ask(&case).map_err(told)?, refusal).map_err(told)
}

fn good_case(call: &Call) -> Case {
    let from = *call.plan.bays.first().unwrap_or(&0);
    Case { plan: call.plan.clone(), shuttle: 0, from, row: Vec::new(), places: MOST_LEFT }
}

fn shuttle(case: &mut Case, shuttle: u64) -> bool {
    case.shuttle = shuttle;
    true
}

fn start_in_bay(case: &mut Case, i: usize) -> bool {
    shuttle(case, i as u64) && from(case, case.plan.bays[i])
}

fn from(case: &mut Case, square: u16) -> bool {
    case.from = square;
    true
}

fn row(case: &mut Case, count: usize, square: u16) -> bool {
    case.row = vec![square; count];
    true
}

fn outside(case: &mut Case, place: usize) -> bool {
    case.row[place] = case.plan.walls.len() as u16;
    true
}

fn free(case: &Case) -> Option<u16> {
    (0..case.plan.walls.len() as u16).find(|square| !case.plan.bays.contains(square))
}

fn wall(case: &mut Case, square: u16) -> bool {
    case.plan.walls[usize::from(square)] = 1;
    true
}

fn places(case: &mut Case, count: usize) -> bool {
    case.places = count;
    true
}
