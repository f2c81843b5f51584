//! The Rust variants that the library's speed is measured beside: they must do the same, or their times say nothing.

use crate::compare::{self, Extent};
use crate::plain::Plain;
use crate::report::Group;
use crate::tuned::Tuned;
use crate::{ticks, ways};
use shared::call::Entry;

pub fn all(extent: Extent) -> Vec<Group> {
    groups("plain", &mut Plain, extent).chain(groups("tuned", &mut Tuned, extent)).collect()
}

fn groups(variant: &'static str, entry: &mut dyn Entry, extent: Extent) -> impl Iterator<Item = Group> + use<> {
    let named = move |group: Group| Group { name: format!("{variant}, {}", group.name), ..group };
    compare::all(entry, extent).into_iter().map(named)
}

pub fn all_ways(extent: Extent) -> Vec<Group> {
    ways::all(&mut Plain, extent)
}

pub fn all_ticks(extent: Extent) -> Vec<Group> {
    ticks::all(&mut Plain, extent)
}
