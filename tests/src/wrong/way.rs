//! Shortest routes by another algorithm than the reference's: leg by leg, with distances backwards from the goal of
//! each leg. Without a fault it must agree with the reference in everything.

use super::copy::RulesCopy;
use super::refuse;
use crate::reference::field::{Field, Way};
use shared::answer::{Answer, Refusal};
use shared::call::{AskedNumbers, FieldNumbers, MOST_ASKED, Ways};
use shared::memory::MOST_LEFT;

faults! {
    WayFault {
        DownBeforeRight: "down comes before right",
        LeftBeforeDown: "left comes before down",
        UpBeforeLeft: "up comes before left",
        FirstFromTheEnd: "of two shortest legs the one that is first from its end is taken",
        ThroughOwnBay: "a leg may pass the own bay",
        ThroughOthersBays: "a leg may pass others' bays",
        ThroughWalls: "a leg may pass walls",
        RowEnds: "the last square of a row is beside the first of the next",
        BayAsGoal: "the own bay may be met although more is asked for",
        OthersBayAsGoal: "another's bay may be met",
        DistanceTooSmall: "a leg's distance is one too small, so that the length answered is",
        Longer: "a route of 257 squares is allowed",
        Shorter: "a route of 256 squares is not allowed",
        LegsUpTo256: "only each leg is held to 256 squares",
        StartNotCounted: "the start does not count as met",
        EqualTwice: "equal neighbours in the row need two visits",
        AnyOrder: "the squares are met in the order of their numbers",
        LastForgotten: "the last square of the row is not asked for",
        NotHome: "the route ends at the last square of the row",
        WritesWhenNone: "what was found of a route is written though there is none",
        ClearsPlaces: "the places behind the route are cleared",
        NineSquares: "nine squares are accepted",
        OutsideIsNone: "a square outside the field is answered with none",
        StartOnWall: "a start on a wall is accepted",
        StartInOthersBay: "a start in another's bay is accepted",
        FewerPlaces: "fewer places than 256 are accepted",
        MorePlaces: "more places than 256 are accepted",
        AskedBeforeShuttle: "what is asked is checked before the shuttle",
        ShuttleBeforeField: "the shuttle is checked before the field",
    }
}

pub struct WayCopy {
    pub fault: Option<WayFault>,
}

impl Ways for WayCopy {
    fn way(&mut self, field: FieldNumbers, asked: AskedNumbers, route: &mut [u16]) -> Answer<Option<usize>> {
        self.check(field, asked, route.len())?;
        if asked.row.iter().any(|&square| usize::from(square) >= field.walls.len()) {
            return Ok(None);
        }
        let mut made = Vec::new();
        let most = match self.fault {
            Some(WayFault::Longer) => MOST_LEFT + 1,
            Some(WayFault::Shorter) => MOST_LEFT - 1,
            _ => MOST_LEFT,
        };
        let there_is = self.legs(field, asked, &mut made).is_some();
        let fits = made.len() <= most || self.has(WayFault::LegsUpTo256);
        let written = made.len().min(route.len());
        if (there_is && fits) || self.has(WayFault::WritesWhenNone) {
            route[..written].copy_from_slice(&made[..written]);
        }
        if !there_is || !fits {
            return Ok(None);
        }
        if self.has(WayFault::ClearsPlaces) {
            route[written..].fill(0);
        }
        Ok(Some(made.len() - usize::from(self.has(WayFault::DistanceTooSmall) && !made.is_empty())))
    }
}

/// One leg: from a square to the next one that is asked for, which may be the own bay if nothing else is left.
struct Leg<'a> {
    field: Field<'a>,
    own: u16,
    start: u16,
    goal: u16,
    last: bool,
}

impl WayCopy {
    fn has(&self, fault: WayFault) -> bool {
        self.fault == Some(fault)
    }

    fn check(&self, field: FieldNumbers, asked: AskedNumbers, places: usize) -> Answer<()> {
        let order = match self.fault {
            Some(WayFault::AskedBeforeShuttle) => [Refusal::Field, Refusal::Way, Refusal::Event],
            Some(WayFault::ShuttleBeforeField) => [Refusal::Event, Refusal::Field, Refusal::Way],
            _ => [Refusal::Field, Refusal::Event, Refusal::Way],
        };
        let shuttle_fits = asked.shuttle < field.bays.len() as u64;
        refuse(order, |refusal| match refusal {
            Refusal::Field => RulesCopy { fault: None }.field_fits(field),
            Refusal::Event => shuttle_fits,
            // Without such a shuttle every bay is another's.
            _ => self.asked_fits(field, asked, shuttle_fits.then_some(asked.shuttle as usize), places),
        })
    }

    fn asked_fits(&self, field: FieldNumbers, asked: AskedNumbers, shuttle: Option<usize>, places: usize) -> bool {
        let most = if self.has(WayFault::NineSquares) { MOST_ASKED + 1 } else { MOST_ASKED };
        let inside = |square: u16| usize::from(square) < field.walls.len() || self.has(WayFault::OutsideIsNone);
        let free = |mark: &u8| *mark == 0 || self.has(WayFault::StartOnWall);
        let owner = field.bays.iter().position(|&bay| bay == asked.from);
        let places_fit = match self.fault {
            Some(WayFault::FewerPlaces) => places <= MOST_LEFT,
            Some(WayFault::MorePlaces) => places >= MOST_LEFT,
            _ => places == MOST_LEFT,
        };
        asked.row.len() <= most
            && asked.row.iter().all(|&square| inside(square))
            && field.walls.get(usize::from(asked.from)).is_some_and(free)
            && (owner.is_none() || owner == shuttle || self.has(WayFault::StartInOthersBay))
            && places_fit
    }

    /// Adds the legs to what is made, as far as there are any.
    fn legs(&self, numbers: FieldNumbers, asked: AskedNumbers, made: &mut Vec<u16>) -> Option<()> {
        let field = Field::read(numbers)?;
        let own = field.bays[asked.shuttle as usize];
        let goals = self.goals(asked.row, own);
        let mut start = asked.from;
        for (k, &goal) in goals.iter().enumerate() {
            let again = (k == 0 && k < asked.row.len() && self.has(WayFault::StartNotCounted))
                || (k > 0 && k < asked.row.len() && self.has(WayFault::EqualTwice));
            if goal == start && !again {
                continue;
            }
            let last = goals[k..].iter().all(|&next| next == goal) || self.has(WayFault::BayAsGoal);
            let leg = Leg { field, own, start, goal, last };
            let squares = if goal == start { self.aside(&leg)? } else { self.leg(&leg)? };
            if squares.len() > MOST_LEFT {
                return None;
            }
            made.extend(squares);
            start = goal;
        }
        Some(())
    }

    fn goals(&self, row: &[u16], own: u16) -> Vec<u16> {
        let mut goals = row.to_vec();
        if self.has(WayFault::AnyOrder) {
            goals.sort_unstable();
        }
        if self.has(WayFault::LastForgotten) {
            goals.pop();
        }
        if !self.has(WayFault::NotHome) || goals.is_empty() {
            goals.push(own);
        }
        goals
    }

    /// One step aside and back, for the faults that ask for a second visit.
    fn aside(&self, leg: &Leg) -> Option<Vec<u16>> {
        let mut around = self.around(leg, leg.start).into_iter();
        around.find(|&square| square != leg.own && self.open(leg, square)).map(|square| vec![square, leg.start])
    }

    fn leg(&self, leg: &Leg) -> Option<Vec<u16>> {
        let from_end = self.has(WayFault::FirstFromTheEnd);
        let (first, end) = if from_end { (leg.goal, leg.start) } else { (leg.start, leg.goal) };
        let distance = self.distances(leg, end);
        let mut squares = vec![first];
        let mut left = distance[usize::from(first)]?;
        while left > 0 {
            let at = squares[squares.len() - 1];
            left -= 1;
            let nearer = |square: &u16| distance[usize::from(*square)] == Some(left);
            squares.push(self.around(leg, at).into_iter().find(nearer)?);
        }
        if from_end {
            squares.reverse();
        }
        Some(squares.split_off(1))
    }

    /// The distance of each square from the leg's end, where it may be passed.
    fn distances(&self, leg: &Leg, end: u16) -> Vec<Option<usize>> {
        let mut distance = vec![None; leg.field.walls.len()];
        if !self.open(leg, leg.goal) {
            return distance;
        }
        distance[usize::from(end)] = Some(0);
        let mut level = vec![end];
        for steps in 1.. {
            let mut next = Vec::new();
            for square in level.into_iter().flat_map(|square| self.around(leg, square)) {
                if distance[usize::from(square)].is_none() && self.open(leg, square) {
                    distance[usize::from(square)] = Some(steps);
                    next.push(square);
                }
            }
            if next.is_empty() {
                break;
            }
            level = next;
        }
        distance
    }

    fn open(&self, leg: &Leg, square: u16) -> bool {
        let Leg { field, own, start, goal, last } = leg;
        let free = field.is_free(square) || self.has(WayFault::ThroughWalls);
        let bay_fits = if square == *own {
            square == *start || (square == *goal && *last) || self.has(WayFault::ThroughOwnBay)
        } else {
            let as_goal = (square == *goal || square == *start) && self.has(WayFault::OthersBayAsGoal);
            !field.bays.contains(&square) || as_goal || self.has(WayFault::ThroughOthersBays)
        };
        free && bay_fits
    }

    fn around(&self, leg: &Leg, square: u16) -> Vec<u16> {
        let ways = match self.fault {
            Some(WayFault::DownBeforeRight) => [Way::Down, Way::Right, Way::Left, Way::Up],
            Some(WayFault::LeftBeforeDown) => [Way::Right, Way::Left, Way::Down, Way::Up],
            Some(WayFault::UpBeforeLeft) => [Way::Right, Way::Down, Way::Up, Way::Left],
            _ => [Way::Right, Way::Down, Way::Left, Way::Up],
        };
        let beyond = |way: Way| match way {
            Way::Right if self.has(WayFault::RowEnds) => Some(square + 1).filter(|&next| leg.field.has(next)),
            Way::Left if self.has(WayFault::RowEnds) => square.checked_sub(1),
            _ => leg.field.toward(square, way),
        };
        ways.into_iter().filter_map(beyond).collect()
    }
}
