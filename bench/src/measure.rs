//! Times of all contenders on one case, in turns.

use crate::case::{Case, Contender};
use std::hint::black_box;
use std::time::{Duration, Instant};

/// How many turns each contender has on each case.
const TURNS: usize = 401;
/// About how long a turn takes.
const TURN: Duration = Duration::from_micros(120);

pub struct Measured {
    /// Nanoseconds for one call of the first contender.
    pub first: f64,
    /// The times of the others as multiples of it.
    pub others: Vec<f64>,
}

/// A ratio is the median of the ratios of turns that follow each other, so that what slows the machine down for a
/// while slows both.
pub fn measure<C: Case>(contenders: &[Contender<C::Function>], case: &C) -> Measured {
    let mut lent = case.lent();
    let calls = calls_in_a_turn(case, &mut lent, contenders[0].function);
    let restoring = median((0..TURNS).map(|_| turn_of(case, &mut lent, calls, None)).collect());
    let mut times = vec![Vec::with_capacity(TURNS); contenders.len()];
    for turn in 0..TURNS {
        // Another one begins each time, so that none always follows the same other one.
        for k in 0..contenders.len() {
            let k = (k + turn) % contenders.len();
            let time = turn_of(case, &mut lent, calls, Some(contenders[k].function));
            times[k].push(time - restoring);
        }
    }
    let ratios = |times_of: &Vec<f64>| times_of.iter().zip(&times[0]).map(|(time, first)| time / first).collect();
    let others = times[1..].iter().map(|times_of| median(ratios(times_of))).collect();
    Measured { first: median(times[0].clone()), others }
}

fn calls_in_a_turn<C: Case>(case: &C, lent: &mut C::Lent, function: C::Function) -> usize {
    let few = 20;
    turn_of(case, lent, few, Some(function));
    let one = turn_of(case, lent, few, Some(function));
    (TURN.as_nanos() as f64 / one) as usize + 1
}

/// Nanoseconds for one call. What a call may change is put back before each, which costs all the same; the time for
/// that alone, taken without a function, is taken away afterwards.
fn turn_of<C: Case>(case: &C, lent: &mut C::Lent, calls: usize, function: Option<C::Function>) -> f64 {
    let begun = Instant::now();
    for _ in 0..calls {
        black_box(case).put_back(black_box(&mut *lent));
        black_box(function.map(|function| black_box(case).call(function, black_box(&mut *lent))));
    }
    begun.elapsed().as_nanos() as f64 / calls as f64
}

fn median(mut numbers: Vec<f64>) -> f64 {
    numbers.sort_by(f64::total_cmp);
    numbers[numbers.len() / 2]
}
