//! Ticks, made of the reference and of the entry under test, and compared: the answer, memory and waits.

mod boundaries;
mod examples;
mod hall;
mod nights;

use crate::compare::Extent;
use crate::hall::Difference;
use crate::reference::Reference;
use crate::report::Group;
use crate::tally::Refusals;
use shared::answer::{Answer, Refusal};
use shared::call::Ticks;
use shared::random::Random;

#[derive(Default)]
struct Tally {
    ticks: u64,
    granted: u64,
    nobody: u64,
    refused: Refusals,
    /// Ticks in which one that has waited longer than the one that is granted has to wait on.
    passed_over: u64,
    /// Ticks in which another one has waited as long as the one that is granted.
    equals: u64,
    /// Nights to the end, and the largest share of the bound that one took, in percent.
    nights: u64,
    largest_share: u64,
}

impl Tally {
    fn count(&mut self, answer: Answer<Option<usize>>) {
        self.ticks += 1;
        match answer {
            Ok(Some(_)) => self.granted += 1,
            Ok(None) => self.nobody += 1,
            Err(refusal) => self.refused.count(refusal),
        }
    }

    fn tell(&self) -> String {
        let [field, memory, turns] = self.refused.each([Refusal::Field, Refusal::Memory, Refusal::Turns]);
        format!(
            "{} ticks, {} granted, {} nobody's, {} with one passed over, {} with equals, refused {field} by field, \
             {memory} by memory, {turns} by waits or marks; {} nights, at most {} % of the bound",
            self.ticks, self.granted, self.nobody, self.passed_over, self.equals, self.nights, self.largest_share
        )
    }
}

struct Pair<'a> {
    entry: &'a mut dyn Ticks,
    reference: Reference,
    tally: Tally,
}

/// Random kinds of cases.
type RandomCase = fn(&mut Random, &mut Pair) -> Result<(), Difference>;
const RANDOM: [(&str, RandomCase); 2] = [("nights", nights::night), ("scrambled", nights::scrambled)];

/// Compares an entry with the reference, with about so many ticks of each random kind as the extent has calls.
pub fn all(entry: &mut dyn Ticks, extent: Extent) -> Vec<Group> {
    let reference = Reference::new(Random::new(extent.seed));
    let mut pair = Pair { entry, reference, tally: Tally::default() };
    let mut groups = Vec::new();
    if extent.only.is_none() {
        let by_hand = examples::all(&mut pair);
        groups.push(group("examples", &mut pair, by_hand));
        let at_limits = boundaries::all(&mut pair);
        groups.push(group("boundaries", &mut pair, at_limits));
    }
    for (name, case) in RANDOM {
        let result = random(&mut pair, extent, case);
        groups.push(group(name, &mut pair, result));
    }
    groups
}

fn random(pair: &mut Pair, extent: Extent, case: RandomCase) -> Result<(), Difference> {
    for number in extent.only.unwrap_or(0).. {
        let mut random = Random::for_case(extent.seed, number);
        pair.reference.safety.random = Random::for_case(!extent.seed, number);
        let again = format!("again with --seed {} --only {number}", extent.seed);
        case(&mut random, pair).map_err(|fault| format!("case {number}: {fault}\n{again}"))?;
        if extent.only.is_some() || pair.tally.ticks >= extent.calls {
            break;
        }
    }
    Ok(())
}

fn group(name: &str, pair: &mut Pair, result: Result<(), Difference>) -> Group {
    let tally = std::mem::take(&mut pair.tally);
    Group { name: format!("tick, {name}"), done: tally.tell(), failure: result.err() }
}
