//! Random fields and random routes on them.

use crate::reference::field::{Field, Way};
use shared::call::FieldNumbers;
use shared::random::Random;
use std::fmt::{self, Display};

/// The numbers of a field, owned.
#[derive(Clone, Debug)]
pub struct Plan {
    pub across: u64,
    pub down: u64,
    pub walls: Vec<u8>,
    pub bays: Vec<u16>,
}

impl Plan {
    pub fn numbers(&self) -> FieldNumbers<'_> {
        FieldNumbers { across: self.across, down: self.down, walls: &self.walls, bays: &self.bays }
    }

    pub fn field(&self) -> Field<'_> {
        Field::read(self.numbers()).expect("random plans are fields")
    }

    pub fn squares(&self) -> usize {
        self.walls.len()
    }

    /// A field of random size with random walls and up to sixteen bays. Most are small, so that shuttles meet.
    pub fn random(random: &mut Random) -> Plan {
        let (across, down) = size(random);
        Plan::of_size(random, across, down)
    }

    pub fn of_size(random: &mut Random, across: usize, down: usize) -> Plan {
        let wall_share = *random.pick(&[0, 0, 10, 20, 35]);
        let mut walls: Vec<u8> = (0..across * down).map(|_| u8::from(random.below(100) < wall_share)).collect();
        if !walls.contains(&0) {
            walls[0] = 0;
        }
        Plan::with_bays(random, across, walls)
    }

    /// Bays on some of the free squares, of which there is at least one.
    pub fn with_bays(random: &mut Random, across: usize, walls: Vec<u8>) -> Plan {
        let mut free: Vec<u16> = (0..walls.len()).filter(|&c| walls[c] == 0).map(|c| c as u16).collect();
        random.shuffle(&mut free);
        // A field full of bays leaves no room for routes; it is tried, but seldom.
        let room = if random.one_in(10) { free.len() } else { free.len().div_ceil(3) };
        let few = if random.one_in(100) { 0 } else { 1 };
        let bays = random.between(few, room.min(16));
        free.truncate(bays);
        Plan { across: across as u64, down: (walls.len() / across) as u64, walls, bays: free }
    }
}

/// Size, bays and walls, to be read by somebody who looks for a fault. The size need not fit the walls.
impl Display for Plan {
    fn fmt(&self, f: &mut fmt::Formatter) -> fmt::Result {
        let Plan { across, down, walls, bays } = self;
        write!(f, "field {across} x {down}, bays {bays:?}")?;
        let width = usize::try_from(*across).ok().filter(|width| (1..=64).contains(width)).unwrap_or(64);
        let sign = |mark: &u8| if *mark == 0 { '.' } else { '#' };
        walls.chunks(width).try_for_each(|row| write!(f, "\n{}", row.iter().map(sign).collect::<String>()))
    }
}

fn size(random: &mut Random) -> (usize, usize) {
    match random.below(20) {
        0 => (1, random.between(1, 64)),
        1 => (random.between(1, 64), 1),
        2 => (64, 64),
        3 => (random.between(1, 64), random.between(1, 64)),
        _ => (random.between(2, 9), random.between(2, 9)),
    }
}

/// A route of the shuttle from a square: a random walk of so many steps, and home again by a shortest way or the
/// way it came. It may fail to be one, where there is no way home or the square is not its bay.
pub fn route(random: &mut Random, field: &Field, shuttle: usize, from: u16, steps: usize) -> Vec<u16> {
    let mut walk = Vec::new();
    let mut at = from;
    for _ in 0..steps {
        let open: Vec<u16> = neighbours(field, at).filter(|&c| is_open(field, c)).collect();
        if open.is_empty() {
            break;
        }
        at = *random.pick(&open);
        walk.push(at);
    }
    let same_way = random.one_in(2) && from == field.bays[shuttle];
    let home = if same_way { back(from, &walk) } else { way_home(random, field, shuttle, at) };
    walk.extend(home);
    walk
}

fn neighbours(field: &Field, square: u16) -> impl Iterator<Item = u16> {
    Way::ALL.into_iter().filter_map(move |way| field.toward(square, way))
}

/// Free, and nobody's bay.
pub fn is_open(field: &Field, square: u16) -> bool {
    field.is_free(square) && !field.bays.contains(&square)
}

fn back(from: u16, walk: &[u16]) -> Vec<u16> {
    match walk {
        [] => Vec::new(),
        [before @ .., _] => before.iter().rev().copied().chain([from]).collect(),
    }
}

/// A shortest way to the shuttle's bay, or nothing if there is none.
fn way_home(random: &mut Random, field: &Field, shuttle: usize, from: u16) -> Vec<u16> {
    let distance = distances(field, field.bays[shuttle]);
    let mut way = Vec::new();
    let mut at = from;
    while let Some(left @ 1..) = distance[usize::from(at)] {
        let nearer: Vec<u16> = neighbours(field, at).filter(|&c| distance[usize::from(c)] == Some(left - 1)).collect();
        if nearer.is_empty() {
            break;
        }
        at = *random.pick(&nearer);
        way.push(at);
    }
    way
}

fn distances(field: &Field, bay: u16) -> Vec<Option<u16>> {
    let mut distance = vec![None; field.walls.len()];
    distance[usize::from(bay)] = Some(0);
    let mut reached = vec![bay];
    let mut next = 0;
    while let Some(&at) = reached.get(next) {
        next += 1;
        for to in neighbours(field, at).filter(|&c| is_open(field, c)) {
            if distance[usize::from(to)].is_none() {
                distance[usize::from(to)] = distance[usize::from(at)].map(|d| d + 1);
                reached.push(to);
            }
        }
    }
    distance
}

/// Changes a route in one place so that it is mostly none any more.
pub fn damage(random: &mut Random, field: &Field, from: u16, route: &mut Vec<u16>) {
    let place = random.below(route.len() + 1);
    let squares = field.walls.len();
    match random.below(7) {
        0 => route.truncate(place),
        1 => route.insert(place, random.below(squares) as u16),
        2 if place < route.len() => route[place] = random.below(squares) as u16,
        3 if place < route.len() => drop(route.remove(place)),
        // Twice the same route passes the own bay in the middle.
        4 => route.extend_from_within(..),
        5 => route.push(random.below(4096) as u16),
        _ => detour(random, field, from, route, place),
    }
}

/// Goes aside by one number and back: to a free square, a wall, a bay, or over the end of a row.
fn detour(random: &mut Random, field: &Field, from: u16, route: &mut Vec<u16>, place: usize) {
    let at = if place == 0 { from } else { route[place - 1] };
    let across = field.across as u16;
    let aside = *random.pick(&[at.wrapping_sub(1), at.wrapping_sub(across), at + 1, at + across]);
    if aside < 4096 {
        route.insert(place, at);
        route.insert(place, aside);
    }
}
