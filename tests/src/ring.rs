//! Fields with a corridor that runs in a ring, and bays outside along it. Each shuttle has a route to the entry of
//! the next one and back, so that one more shuttle in the corridor can close a ring of any size though its square
//! is free.

use crate::plan::Plan;
use shared::random::Random;

pub struct Ring {
    pub plan: Plan,
    /// The route of each shuttle.
    pub routes: Vec<Vec<u16>>,
}

impl Ring {
    /// A ring in one case of so many, else any plan, which has no routes of its own.
    pub fn one_in(random: &mut Random, many: usize) -> Ring {
        if random.one_in(many) { Ring::random(random) } else { Ring { plan: Plan::random(random), routes: Vec::new() } }
    }

    fn random(random: &mut Random) -> Ring {
        let (wide, high) = (random.between(2, 6), random.between(2, 6));
        let corridor = corridor(wide, high);
        let mut entries: Vec<usize> = (0..corridor.len()).collect();
        random.shuffle(&mut entries);
        entries.truncate(random.between(2, corridor.len().min(16)));
        let across = wide + 2;
        let mut walls = vec![1; across * (high + 2)];
        for &(row, column) in &corridor {
            walls[row * across + column] = 0;
        }
        let squares: Vec<u16> = corridor.iter().map(|(row, column)| (row * across + column) as u16).collect();
        let bays: Vec<u16> = entries.iter().map(|&entry| bay(corridor[entry], wide, high)).collect();
        bays.iter().for_each(|&bay| walls[usize::from(bay)] = 0);
        let routes = (0..bays.len()).map(|i| route(&squares, &entries, entries[i], bays[i])).collect();
        Ring { plan: Plan { across: across as u64, down: (high + 2) as u64, walls, bays }, routes }
    }
}

/// The squares along the inside of the outer wall as rows and columns, clockwise.
fn corridor(wide: usize, high: usize) -> Vec<(usize, usize)> {
    let top = (1..=wide).map(|column| (1, column));
    let right = (2..=high).map(|row| (row, wide));
    let bottom = (1..wide).rev().map(|column| (high, column));
    let left = (2..high).rev().map(|row| (row, 1));
    top.chain(right).chain(bottom).chain(left).collect()
}

/// The square in the outer wall beside a square of the corridor.
fn bay((row, column): (usize, usize), wide: usize, high: usize) -> u16 {
    let (row, column) = match (row, column) {
        (1, column) => (0, column),
        (row, column) if row == high => (high + 1, column),
        (row, 1) => (row, 0),
        (row, _) => (row, wide + 1),
    };
    (row * (wide + 2) + column) as u16
}

/// From the own entry on to the next one that is used, and back into the bay.
fn route(corridor: &[u16], entries: &[usize], own: usize, bay: u16) -> Vec<u16> {
    let steps_to = |entry: usize| (entry + corridor.len() - own) % corridor.len();
    let far = entries.iter().map(|&entry| steps_to(entry)).filter(|&steps| steps > 0).min().unwrap_or(1);
    let out: Vec<u16> = (0..=far).map(|step| corridor[(own + step) % corridor.len()]).collect();
    let back = out[..far].iter().rev().copied();
    out.iter().copied().chain(back).chain([bay]).collect()
}
