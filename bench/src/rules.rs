//! Rules of which steps may be made, to compare ours with. Only ours is for use.

use crate::plain::{Fleet, is_granted};
use shared::memory::{PLACES, part_of};

#[derive(Clone, Copy, Debug, PartialEq, Eq)]
pub enum Rule {
    /// Ours: nobody else holds the next square, and all can come home after the step.
    Ours,
    /// A shuttle leaves its bay only while all others are in theirs.
    OneAtATime,
    /// A shuttle leaves its bay once nobody else holds or needs a square of its whole route, which it then has for
    /// itself; it gives each square back when it has passed it for the last time.
    WholeRoutes,
    /// Nobody else holds the next square.
    NextSquare,
    /// Shuttles pass through each other. No rule can do more.
    NoneInTheWay,
}

impl Rule {
    pub const ALL: [Rule; 5] = [Rule::Ours, Rule::OneAtATime, Rule::WholeRoutes, Rule::NextSquare, Rule::NoneInTheWay];

    pub fn name(self) -> &'static str {
        match self {
            Rule::Ours => "ours",
            Rule::OneAtATime => "one at a time",
            Rule::WholeRoutes => "whole routes",
            Rule::NextSquare => "next square only",
            Rule::NoneInTheWay => "none in the way",
        }
    }

    pub fn may_step(self, bays: &[u16], fleet: &Fleet, memory: &[u16], i: usize) -> bool {
        let others = || (0..bays.len()).filter(move |&j| j != i);
        if fleet[i].moves || fleet[i].length == 0 {
            return false;
        }
        let leaves = fleet[i].square == bays[i];
        let next = part_of(memory, i)[PLACES];
        match self {
            Rule::Ours => is_granted(fleet, bays.len(), i, memory),
            Rule::OneAtATime => !leaves || others().all(|j| !is_under_way(bays, fleet, j)),
            Rule::WholeRoutes => {
                let is_free = |square: &u16| others().all(|j| !is_reserved(bays, fleet, memory, j, *square));
                !leaves || left(memory, fleet, i).iter().all(is_free)
            }
            Rule::NextSquare => others().all(|j| !fleet[j].holds(next)),
            Rule::NoneInTheWay => true,
        }
    }
}

pub fn is_under_way(bays: &[u16], fleet: &Fleet, shuttle: usize) -> bool {
    fleet[shuttle].moves || fleet[shuttle].square != bays[shuttle]
}

fn left<'a>(memory: &'a [u16], fleet: &Fleet, shuttle: usize) -> &'a [u16] {
    &part_of(memory, shuttle)[PLACES..][..usize::from(fleet[shuttle].length)]
}

/// Whether a shuttle that is under way holds the square or needs it again.
fn is_reserved(bays: &[u16], fleet: &Fleet, memory: &[u16], shuttle: usize, square: u16) -> bool {
    is_under_way(bays, fleet, shuttle)
        && (fleet[shuttle].holds(square) || left(memory, fleet, shuttle).contains(&square))
}

/// Whether some shuttles stand in a ring, each on the square that the one before it wants next. If only next squares
/// are looked at, none of them ever moves again.
pub fn has_ring(fleet: &Fleet, memory: &[u16], shuttles: usize) -> bool {
    let waits_for = |i: usize| {
        let next = *left(memory, fleet, i).first()?;
        (0..shuttles).find(|&j| j != i && !fleet[j].moves && fleet[j].square == next)
    };
    let follow = |at: Option<usize>| at.filter(|&i| !fleet[i].moves).and_then(waits_for);
    (0..shuttles).any(|i| {
        let mut at = follow(Some(i));
        (0..shuttles).any(|_| {
            let closed = at == Some(i);
            at = follow(at);
            closed
        })
    })
}
