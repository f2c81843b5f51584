//! The groups of cases in which an entry is compared with the reference.

use crate::boundaries;
use crate::examples;
use crate::hall::{Difference, Pair};
use crate::playing;
use crate::reference::Outcome;
use crate::report::Group;
use crate::scrambled;
use crate::tally::Tally;
use shared::call::Entry;
use shared::random::Random;
use std::fmt::{self, Display};
use std::str::FromStr;

#[derive(Clone, Copy, Debug, PartialEq, Eq)]
pub enum Kind {
    Examples,
    Boundaries,
    Playing,
    Scrambled,
}

impl Kind {
    pub const ALL: [Kind; 4] = [Kind::Examples, Kind::Boundaries, Kind::Playing, Kind::Scrambled];
}

impl Display for Kind {
    fn fmt(&self, f: &mut fmt::Formatter) -> fmt::Result {
        f.write_str(match self {
            Kind::Examples => "examples",
            Kind::Boundaries => "boundaries",
            Kind::Playing => "playing",
            Kind::Scrambled => "scrambled",
        })
    }
}

impl FromStr for Kind {
    type Err = String;

    fn from_str(name: &str) -> Result<Kind, String> {
        Kind::ALL.into_iter().find(|kind| kind.to_string() == name).ok_or(format!("no kind {name}"))
    }
}

/// What a run makes: about so many calls of each random kind, or one hall of one kind alone.
#[derive(Clone, Copy)]
pub struct Extent {
    pub seed: u64,
    pub calls: u64,
    pub only: Option<u64>,
}

/// What came of one kind of cases.
pub struct Run {
    pub tally: Tally,
    pub difference: Option<Difference>,
    pub safety: [u64; 3],
}

pub fn run(kind: Kind, entry: &mut dyn Entry, extent: Extent) -> Run {
    let mut pair = Pair::new(entry, extent.seed);
    let result = match kind {
        Kind::Examples => examples::all(&mut pair),
        Kind::Boundaries => boundaries::all(&mut pair),
        Kind::Playing => halls(kind, &mut pair, extent, playing::hall),
        Kind::Scrambled => halls(kind, &mut pair, extent, scrambled::hall),
    };
    let safety = &pair.reference.safety;
    let safety = [safety.asked, safety.by_all_orders, safety.by_subsets];
    Run { tally: pair.tally, difference: result.err(), safety }
}

type HallCase = fn(&mut Random, &mut Pair) -> Result<(), Difference>;

fn halls(kind: Kind, pair: &mut Pair, extent: Extent, hall: HallCase) -> Result<(), Difference> {
    let first = extent.only.unwrap_or(0);
    for number in first.. {
        let done = if extent.only.is_some() { number > first } else { pair.tally.calls >= extent.calls };
        if done {
            break;
        }
        let mut random = Random::for_case(extent.seed, 2 * number + u64::from(kind == Kind::Playing));
        pair.reference.safety.random = Random::new(random.number());
        let again = format!("again with --seed {} --kind {kind} --hall {number}", extent.seed);
        hall(&mut random, pair).map_err(|fault| format!("hall {number}: {fault}\n{again}"))?;
    }
    Ok(())
}

/// All kinds, and what must be true of them together.
pub fn all(entry: &mut dyn Entry, extent: Extent) -> Vec<Group> {
    let runs: Vec<(Kind, Run)> = Kind::ALL.into_iter().map(|kind| (kind, run(kind, entry, extent))).collect();
    let mut groups: Vec<Group> = runs.iter().map(|(kind, run)| of_kind(*kind, run)).collect();
    groups.push(invariants(&runs));
    groups.push(outcomes(&runs));
    groups
}

pub fn of_kind(kind: Kind, run: &Run) -> Group {
    let [asked, by_all_orders, by_subsets] = run.safety;
    let done = format!(
        "{} calls of {} halls, safety asked {asked} times, {by_all_orders} by all orders, {by_subsets} by subsets; {}",
        run.tally.calls,
        run.tally.halls,
        run.tally.tell()
    );
    Group { name: kind.to_string(), done, failure: run.difference.clone() }
}

fn invariants(runs: &[(Kind, Run)]) -> Group {
    let count = |of: fn(&Tally) -> u64| runs.iter().map(|(_, run)| of(&run.tally)).sum::<u64>();
    let done = format!(
        "{} collisions, {} stuck, {} not home at the end",
        count(|tally| tally.collisions),
        count(|tally| tally.stuck),
        count(|tally| tally.not_home)
    );
    let violated = count(Tally::violations) > 0;
    Group { name: "invariants".to_string(), failure: violated.then(|| done.clone()), done }
}

/// A run that never meets one of the outcomes has not tested it.
fn outcomes(runs: &[(Kind, Run)]) -> Group {
    let missing: Vec<Outcome> =
        Outcome::ALL.into_iter().filter(|&outcome| runs.iter().all(|(_, run)| run.tally.of(outcome) == 0)).collect();
    Group {
        name: "outcomes".to_string(),
        done: format!("each of {} occurred", Outcome::ALL.len()),
        failure: (!missing.is_empty()).then(|| format!("never occurred: {missing:?}")),
    }
}
