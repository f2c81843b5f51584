//! Ways that were worked out by hand.

use super::{Case, MOST_LEFT, Pair};

use crate::hall::Difference;
use crate::plan::Plan;

/// Four across and three down, with a wall at 5; shuttle 0's bay is 0, shuttle 1's 3.
///
/// ```text
/// a..b
/// .#..
/// ....
/// ```
fn small() -> Plan {
    let mut walls = vec![0; 12];
    walls[5] = 1;
    Plan { across: 4, down: 3, walls, bays: vec![0, 3] }
}

struct Example {
    from: u16,
    row: &'static [u16],
    /// The route of shuttle 0, if there is one.
    route: Option<&'static [u16]>,
}

const fn example(from: u16, row: &'static [u16], route: Option<&'static [u16]>) -> Example {
    Example { from, row, route }
}

const EXAMPLES: &[Example] = &[
    example(0, &[], Some(&[])),
    example(0, &[0], Some(&[])),
    example(0, &[0, 0, 0], Some(&[])),
    example(2, &[], Some(&[1, 0])),
    example(2, &[2, 2], Some(&[1, 0])),
    example(0, &[1], Some(&[1, 0])),
    example(0, &[1, 1, 1], Some(&[1, 0])),
    example(0, &[0, 1, 0], Some(&[1, 0])),
    // The bay can be met at the beginning and at the end only.
    example(0, &[1, 0, 1], None),
    example(1, &[0, 1], None),
    // Right before down, also where the way back is chosen.
    example(0, &[10], Some(&[1, 2, 6, 10, 9, 8, 4, 0])),
    example(0, &[10, 2], Some(&[1, 2, 6, 10, 6, 2, 1, 0])),
    example(0, &[9, 10], Some(&[4, 8, 9, 10, 9, 8, 4, 0])),
    // What lies on the way is met without another step, but only in the order of the row.
    example(0, &[1, 2, 6, 10], Some(&[1, 2, 6, 10, 9, 8, 4, 0])),
    example(0, &[2, 1], Some(&[1, 2, 1, 0])),
    example(0, &[1, 2, 1, 2], Some(&[1, 2, 1, 2, 1, 0])),
    // From the bay's one side to the other the way leads around, and not through the bay.
    example(1, &[4], Some(&[2, 6, 10, 9, 8, 4, 0])),
    example(4, &[1], Some(&[8, 9, 10, 6, 2, 1, 0])),
    example(0, &[5], None),
    example(0, &[3], None),
    example(0, &[7], Some(&[1, 2, 6, 7, 6, 2, 1, 0])),
];

pub fn all(pair: &mut Pair) -> Result<(), Difference> {
    for Example { from, row, route } in EXAMPLES {
        let case = Case { plan: small(), shuttle: 0, from: *from, row: row.to_vec(), places: MOST_LEFT };
        expect(pair, &case, *route)?;
    }
    corridors(pair)
}

fn expect(pair: &mut Pair, case: &Case, route: Option<&[u16]>) -> Result<(), Difference> {
    let mut places = vec![0; MOST_LEFT];
    let answers = [pair.ask(case)?, pair.entry.way(case.plan.numbers(), case.asked(), &mut places)];
    let written = &places[..route.map_or(0, <[u16]>::len)];
    if answers == [Ok(route.map(<[u16]>::len)); 2] && route.is_none_or(|route| route == written) {
        return Ok(());
    }
    Err(format!("both answer {answers:?} with {written:?}, worked out by hand {route:?}: {:?}", case.row))
}

/// A corridor of so many squares: to its end and back is as long as a route may be, or one or two squares longer.
fn corridors(pair: &mut Pair) -> Result<(), Difference> {
    let row =
        |square: u16| square / 64 * 128 + if (square / 64).is_multiple_of(2) { square % 64 } else { 63 - square % 64 };
    // The squares between two rows of the corridor are opened at the ends, so that place 64 lies below place 63.
    let corridor: Vec<u16> = (0..3)
        .flat_map(|k| {
            let along = (64 * k..64 * k + 64).map(row);
            along.chain([128 * k + 64 + if k % 2 == 0 { 63 } else { 0 }])
        })
        .collect();
    let mut walls = vec![1; 64 * 6];
    corridor.iter().for_each(|&square| walls[usize::from(square)] = 0);
    let plan = Plan { across: 64, down: 6, walls, bays: vec![corridor[0]] };
    for (start, end, there) in [(0, 128, true), (0, 129, false), (2, 129, true), (1, 129, false), (1, 128, true)] {
        let case =
            Case { plan: plan.clone(), shuttle: 0, from: corridor[start], row: vec![corridor[end]], places: MOST_LEFT };
        let out = corridor[start + 1..=end].iter();
        let route: Vec<u16> = out.chain(corridor[..end].iter().rev()).copied().collect();
        expect(pair, &case, there.then_some(&route))?;
    }
    Ok(())
}
