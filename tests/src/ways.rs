//! Calls of `way`, made of the reference and of the entry under test, and compared route for route.

mod boundaries;
mod cases;
mod examples;

use crate::compare::Extent;
use crate::hall::{Difference, wrong_answer};
use crate::lent::{Lent, LentField};
use crate::plan::Plan;
use crate::reference::walks;
use crate::reference::way::{self, Outcome};
use crate::report::Group;
use crate::tally::Refusals;
use shared::answer::{Answer, Refusal};
use shared::call::{AskedNumbers, Ways};
use shared::memory::MOST_LEFT;
use shared::random::Random;

/// A call in full.
#[derive(Clone)]
pub struct Case {
    pub plan: Plan,
    pub shuttle: u64,
    pub from: u16,
    pub row: Vec<u16>,
    /// How many places are lent for the route.
    pub places: usize,
}

impl Case {
    fn asked(&self) -> AskedNumbers<'_> {
        AskedNumbers { shuttle: self.shuttle, from: self.from, row: &self.row }
    }
}

/// Fields of at most so many squares are searched by going through all walks too, of at most so many steps.
const ALL_WALKS_SQUARES: usize = 16;
const ALL_WALKS_STEPS: usize = 8;

#[derive(Default)]
struct Tally {
    calls: u64,
    found: u64,
    longest: usize,
    no_route: u64,
    too_long: u64,
    refused: Refusals,
    by_all_walks: u64,
}

impl Tally {
    fn count(&mut self, outcome: Answer<Outcome>) {
        self.calls += 1;
        match outcome {
            Ok(Outcome::Found(length)) => {
                self.found += 1;
                self.longest = self.longest.max(length);
            }
            Ok(Outcome::NoRoute) => self.no_route += 1,
            Ok(Outcome::TooLong) => self.too_long += 1,
            Err(refusal) => self.refused.count(refusal),
        }
    }

    fn tell(&self) -> String {
        let [field, shuttle, asked] = self.refused.each([Refusal::Field, Refusal::Event, Refusal::Way]);
        format!(
            "{} calls, {} found, longest {}, {} none, {} too long, refused {field} by field, {shuttle} by shuttle, \
             {asked} by what is asked; {} by all walks",
            self.calls, self.found, self.longest, self.no_route, self.too_long, self.by_all_walks
        )
    }
}

struct Pair<'a> {
    entry: &'a mut dyn Ways,
    tally: Tally,
}

impl Pair<'_> {
    fn ask(&mut self, case: &Case) -> Result<Answer<Option<usize>>, Difference> {
        let field = LentField::new(&case.plan);
        let row = Lent::new(&case.row, 0xeee2);
        // A number of its own in each place, none of them a square, so that every write is seen.
        let blank: Vec<u16> = (0..case.places).map(|place| 0xf000 | (place & 0xfff) as u16).collect();
        let mut route = Lent::new(&blank, 0xeee3);
        let mut expected = blank;
        let outcome = way::outcome(case.plan.numbers(), case.asked(), &mut expected);
        let asked = AskedNumbers { row: row.content(), ..case.asked() };
        let answer = self.entry.way(field.numbers(&case.plan), asked, route.content_mut());
        self.tally.count(outcome);
        self.by_all_walks(case, outcome, &expected);
        let fault = wrong_answer(&answer, &outcome.map(Outcome::length))
            .or_else(|| route.fault("the route", &expected))
            .or_else(|| field.fault(&case.plan))
            .or_else(|| row.fault("the row", &case.row));
        match fault {
            Some(fault) => Err(format!("{fault}, {outcome:?}\n{}", picture(case, &expected))),
            None => Ok(answer),
        }
    }

    fn by_all_walks(&mut self, case: &Case, outcome: Answer<Outcome>, route: &[u16]) {
        if outcome.is_err() || case.plan.squares() > ALL_WALKS_SQUARES {
            return;
        }
        let (field, shuttle) = (case.plan.field(), case.shuttle as usize);
        let by_walks = walks::first_shortest(&field, shuttle, case.from, &case.row, ALL_WALKS_STEPS);
        let by_search = match outcome {
            Ok(Outcome::Found(length @ ..=ALL_WALKS_STEPS)) => Some(route[..length].to_vec()),
            _ => None,
        };
        assert_eq!(by_walks, by_search, "all walks and the search differ:\n{}", picture(case, route));
        self.tally.by_all_walks += 1;
    }
}

fn picture(case: &Case, expected: &[u16]) -> String {
    let Case { plan, shuttle, from, row, places } = case;
    let route: Vec<&u16> = expected.iter().take_while(|&&square| square < 0xf000).collect();
    format!("{plan}\nshuttle {shuttle} from {from}, row {row:?}, {places} places\nroute by the reference: {route:?}")
}

/// Random kinds of cases, and one of how many calls is of each.
type RandomCase = fn(&mut Random) -> Case;
const RANDOM: [(&str, RandomCase, u64); 3] =
    [("small fields", cases::small, 1), ("any fields", cases::any, 5), ("long ways", cases::long, 20)];

/// Compares an entry with the reference; `calls` of the extent is for small fields, and for the others a share of it.
pub fn all(entry: &mut dyn Ways, extent: Extent) -> Vec<Group> {
    let mut pair = Pair { entry, tally: Tally::default() };
    let mut groups = Vec::new();
    if extent.only.is_none() {
        let by_hand = examples::all(&mut pair);
        groups.push(group("examples", &mut pair, by_hand));
        let at_limits = boundaries::all(&mut pair);
        groups.push(group("boundaries", &mut pair, at_limits));
    }
    for (name, case, share) in RANDOM {
        let numbers = extent.only.map_or(0..(extent.calls / share).max(1), |number| number..number + 1);
        let result = numbers.into_iter().try_for_each(|number| {
            let case = case(&mut Random::for_case(extent.seed, number));
            let again = format!("again with --seed {} --only {number}", extent.seed);
            pair.ask(&case).map(drop).map_err(|fault| format!("case {number}: {fault}\n{again}"))
        });
        groups.push(group(name, &mut pair, result));
    }
    groups
}

fn group(name: &str, pair: &mut Pair, result: Result<(), Difference>) -> Group {
    let tally = std::mem::take(&mut pair.tally);
    Group { name: format!("way, {name}"), done: tally.tell(), failure: result.err() }
}
