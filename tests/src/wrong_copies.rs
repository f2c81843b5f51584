//! Shows that the comparison finds each fault: a copy without one passes, and every wrong copy is caught.

use crate::compare::{self, Extent, Kind};
use crate::report::Group;
use crate::wrong::copy::RulesCopy;
use crate::wrong::tick::TickCopy;
use crate::wrong::way::WayCopy;
use crate::wrong::{Fault, Planted};
use crate::{ticks, ways};

pub fn all(extent: Extent) -> Vec<Group> {
    let without = compare::all(&mut RulesCopy { fault: None }, extent);
    let caught = |fault: Fault| {
        let runs =
            Kind::ALL.into_iter().map(|kind| (kind, compare::run(kind, &mut RulesCopy { fault: Some(fault) }, extent)));
        let by = runs.filter(|(_, run)| run.difference.is_some());
        caught_by(fault.to_string(), by.map(|(kind, run)| format!("{kind} at call {}", run.tally.calls)), ", ")
    };
    with_each_fault(without, caught)
}

pub fn all_ways(extent: Extent) -> Vec<Group> {
    let run = |fault| ways::all(&mut WayCopy { fault }, extent);
    with_each_fault(run(None), |fault| caught_by_groups(format!("way, {fault}"), run(Some(fault))))
}

pub fn all_ticks(extent: Extent) -> Vec<Group> {
    let run = |fault| ticks::all(&mut TickCopy { fault }, extent);
    with_each_fault(run(None), |fault| caught_by_groups(format!("tick, {fault}"), run(Some(fault))))
}

/// The groups of the copy without a fault, and one for each fault.
fn with_each_fault<F: Planted>(without: Vec<Group>, caught: impl Fn(F) -> Group) -> Vec<Group> {
    let without = without.into_iter().map(|group| Group { name: format!("no fault, {}", group.name), ..group });
    without.chain(F::ALL.iter().map(|&fault| caught(fault))).collect()
}

fn caught_by_groups(name: String, groups: Vec<Group>) -> Group {
    let by = groups.into_iter().filter(|group| group.failure.is_some());
    caught_by(name, by.map(|group| group.name), "; ")
}

/// A wrong copy is caught if one kind of cases or more fails.
fn caught_by(name: String, by: impl Iterator<Item = String>, between: &str) -> Group {
    let by: Vec<String> = by.collect();
    let failure = by.is_empty().then(|| "not caught".to_string());
    Group { name, done: format!("caught by {}", by.join(between)), failure }
}
