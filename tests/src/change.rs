//! Changes of something good in one place, each with the refusal that it asks for.

use shared::answer::Refusal;

/// A change of a `C`. Made, it says whether there was room for it; nothing if there always is.
pub struct Change<C, Made = bool> {
    pub name: &'static str,
    /// Nothing if what is changed is still good.
    pub refusal: Option<Refusal>,
    /// Whether it is the length of memory that is wrong, which is all that a start looks at in it.
    pub of_length: bool,
    pub make: fn(&mut C) -> Made,
}

pub const fn good<C, Made>(name: &'static str, make: fn(&mut C) -> Made) -> Change<C, Made> {
    Change { name, refusal: None, of_length: false, make }
}

pub const fn refused<C, Made>(refusal: Refusal, name: &'static str, make: fn(&mut C) -> Made) -> Change<C, Made> {
    Change { name, refusal: Some(refusal), of_length: false, make }
}

/// What is good with these changes, which are told, and the refusal that they ask for. Nothing if there is no room for
/// one of them.
pub fn changed<C: Clone>(good: &C, changes: &[&Change<C>]) -> Option<(C, String, Option<Refusal>)> {
    let mut changed = good.clone();
    // The later check's change comes first: one of the field may alter how much room there is, and a shuttle that isn't
    // there must not be replaced by one that is.
    let made = changes.iter().rev().all(|change| (change.make)(&mut changed));
    let names: Vec<&str> = changes.iter().map(|change| change.name).collect();
    let refusal = changes.iter().filter_map(|change| change.refusal).min();
    made.then(|| (changed, format!("changed: {names:?}"), refusal))
}

/// Every two changes of which the first asks for the smaller refusal, which is then the one that is answered.
pub fn pairs<C>(changes: &[Change<C>]) -> impl Iterator<Item = [&Change<C>; 2]> {
    let with_later = |(place, one)| changes[place + 1..].iter().map(move |other| [one, other]);
    let both = changes.iter().enumerate().flat_map(with_later);
    both.filter(|[one, other]| one.refusal.is_some() && one.refusal < other.refusal)
}
