//! Every refusal of a tick at its boundary, with the refusal that each change of a good tick asks for.

use super::Pair;
use super::hall::Hall;
use crate::boundaries::{Call, SIZES, right, size};
use crate::change::{Change, good, refused};
use crate::changes;
use crate::hall::Difference;
use shared::answer::Refusal::{self, Turns};
use shared::call::STEP;
use shared::memory::{MARK, PER_SHUTTLE};

/// A tick in full.
#[derive(Clone)]
struct Tick {
    call: Call,
    waits: Vec<u64>,
    due: Vec<u8>,
}

const CHANGES: &[Change<Tick, ()>] = &[
    refused(Turns, "no waits", |t| t.waits.clear()),
    refused(Turns, "a wait too few", |t| t.waits.truncate(t.waits.len() - 1)),
    refused(Turns, "a wait too many", |t| t.waits.push(0)),
    refused(Turns, "256 waits too many", |t| t.waits.resize(t.waits.len() + 256, 0)),
    refused(Turns, "no marks", |t| t.due.clear()),
    refused(Turns, "a mark too few", |t| t.due.truncate(t.due.len() - 1)),
    refused(Turns, "a mark too many", |t| t.due.push(0)),
    refused(Turns, "256 marks too many", |t| t.due.resize(t.due.len() + 256, 0)),
    refused(Turns, "a wait and a mark too many", |t| {
        t.waits.push(0);
        t.due.push(0);
    }),
    refused(Turns, "mark 2 first", |t| t.due[0] = 2),
    refused(Turns, "mark 2 last", |t| *t.due.last_mut().expect("there is a shuttle") = 2),
    refused(Turns, "mark 255 first", |t| t.due[0] = 255),
    refused(Turns, "mark 255 last", |t| *t.due.last_mut().expect("there is a shuttle") = 255),
    good("all marks 1", |t| t.due.fill(1)),
    good("all marks 0", |t| t.due.fill(0)),
    refused(Turns, "the most waited first", |t| t.waits[0] = u64::MAX),
    refused(Turns, "the most waited last", |t| *t.waits.last_mut().expect("there is a shuttle") = u64::MAX),
    good("one less than the most waited first", |t| t.waits[0] = u64::MAX - 1),
    good("one less than the most waited last", |t| {
        *t.waits.last_mut().expect("there is a shuttle") = u64::MAX - 1;
    }),
    good("2^32 waited", |t| t.waits.fill(1 << 32)),
];

pub fn all(pair: &mut Pair) -> Result<(), Difference> {
    let of_calls = || changes::ALL.iter().filter(|change| change.refusal <= Some(Refusal::Memory));
    for size in SIZES {
        for left in [0, 1, 256] {
            let good = good_tick(Call::good(size, left, STEP));
            check(pair, &good, None, None)?;
            CHANGES.iter().try_for_each(|change| check(pair, &good, None, Some(change)))?;
            of_calls().try_for_each(|of_call| check(pair, &good, Some(of_call), None))?;
        }
    }
    for size in [size(5, 5, 4, 1), size(64, 64, 16, 0)] {
        let good = good_tick(Call::good(size, 256, STEP));
        for change in CHANGES.iter().filter(|change| change.refusal.is_some()) {
            for of_call in of_calls().filter(|change| change.refusal.is_some()) {
                check(pair, &good, Some(of_call), Some(change))?;
            }
        }
    }
    Ok(())
}

/// The last shuttle moves and its arrival is due, so that a refused tick that makes it is seen.
fn good_tick(mut call: Call) -> Tick {
    let count = call.plan.bays.len();
    call.memory[PER_SHUTTLE * (count - 1) + MARK] = 1;
    let due = (0..count).map(|i| u8::from(i + 1 == count)).collect();
    Tick { call, waits: (0..count as u64).collect(), due }
}

fn check(
    pair: &mut Pair,
    good: &Tick,
    of_call: Option<&Change<Call>>,
    of_turns: Option<&Change<Tick, ()>>,
) -> Result<(), Difference> {
    let mut tick = good.clone();
    if let Some(change) = of_turns {
        (change.make)(&mut tick);
    }
    // A change that this call leaves no room for makes no case.
    if of_call.is_some_and(|change| !(change.make)(&mut tick.call)) {
        return Ok(());
    }
    let names = (of_call.map(|change| change.name), of_turns.map(|change| change.name));
    let told = |fault: Difference| format!("changed: {names:?}: {fault}");
    let refusals = [of_call.and_then(|change| change.refusal), of_turns.and_then(|change| change.refusal)];
    let mut hall = Hall::new(tick.call.plan, tick.call.memory, tick.waits);
    let answer = hall.tick(pair, &tick.due).map_err(told)?;
    right(answer, refusals.into_iter().flatten().min()).map_err(told)
}
