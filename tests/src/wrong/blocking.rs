//! Whether all can run, from who blocks whom as sets of bits: rightly by taking out, and wrongly in several ways.

use super::copy::left;
use shared::call::FieldNumbers;
use shared::memory::PER_SHUTTLE;

/// The set after each that can run was taken out, once round.
pub fn take_out_once(blockers: &[u32], set: u32) -> u32 {
    (0..blockers.len()).fold(set, |set, i| if blockers[i] & set == 0 { set & !(1 << i) } else { set })
}

pub fn all_can_run(blockers: &[u32]) -> bool {
    let mut set = (1u32 << blockers.len()) - 1;
    loop {
        let smaller = take_out_once(blockers, set);
        if smaller == set {
            return set == 0;
        }
        set = smaller;
    }
}

/// Whether a ring of at most so many shuttles blocks itself.
pub fn has_ring(blockers: &[u32], most: usize) -> bool {
    let next = |set: u32| (0..blockers.len()).filter(|j| set & (1 << j) != 0).fold(0, |all, j| all | blockers[j]);
    (0..blockers.len()).any(|i| {
        let mut reached = 1u32 << i;
        (0..most).any(|_| {
            reached = next(reached);
            reached & (1 << i) != 0
        })
    })
}

/// For each shuttle the set of the others whose bays are among what is left to it.
pub fn at_home(field: FieldNumbers, memory: &[u16]) -> Vec<u32> {
    let bays_met = |i: usize, part: &[u16]| {
        let met = |j: &usize| *j != i && left(part).contains(&field.bays[*j]);
        (0..field.bays.len()).filter(met).fold(0, |set, j| set | 1 << j)
    };
    memory.chunks(PER_SHUTTLE).enumerate().map(|(i, part)| bays_met(i, part)).collect()
}

pub fn all_run_past_bays(blockers: &[u32], at_home: &[u32]) -> bool {
    let mut set = (1u32 << blockers.len()) - 1;
    while let Some(i) =
        (0..blockers.len()).find(|&i| set & (1 << i) != 0 && blockers[i] & set == 0 && at_home[i] & !set == 0)
    {
        set &= !(1 << i);
    }
    set == 0
}
