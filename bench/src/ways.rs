//! Ways that are measured, all on the largest field but one.

use crate::case::{Case, Contender};
use crate::paths::{distances, path};
use crate::plain::Plain;
use shared::call::{AskedNumbers, FieldNumbers};
use shared::memory::MOST_LEFT;
use shared::random::Random;
use shared::{function, maze};

pub fn contenders() -> Vec<Contender<function::Way>> {
    vec![
        Contender { name: "plain", function: function::Way::by::<Plain>() },
        #[cfg(feature = "way")]
        Contender { name: "library", function: function::Way::LIBRARY },
    ]
}

/// A way from the bay of the first shuttle.
pub struct Way {
    name: &'static str,
    across: u64,
    walls: Vec<u8>,
    bays: Vec<u16>,
    row: Vec<u16>,
    /// The length of the route, if there is one.
    length: Option<usize>,
}

impl Case for Way {
    type Function = function::Way;
    type Lent = [u16; MOST_LEFT];

    fn name(&self) -> &str {
        self.name
    }

    fn told(&self) -> Option<usize> {
        self.length
    }

    fn lent(&self) -> [u16; MOST_LEFT] {
        [u16::MAX; MOST_LEFT]
    }

    /// Every call writes the same places, whatever stood there.
    fn put_back(&self, _: &mut [u16; MOST_LEFT]) {}

    fn call(&self, way: function::Way, route: &mut [u16; MOST_LEFT]) -> u64 {
        let Way { across, walls, bays, row, .. } = self;
        let field = FieldNumbers { across: *across, down: walls.len() as u64 / across, walls, bays };
        way.call(field, AskedNumbers { shuttle: 0, from: bays[0], row }, route)
    }
}

fn square(column: usize, row: usize) -> u16 {
    (64 * row + column) as u16
}

/// Sixteen bays: the first where it is told, the others on the squares given.
fn on_floor(name: &'static str, bay: u16, row: Vec<u16>, length: Option<usize>) -> Way {
    let others = (0..15).map(|i| square(4 * i + 2, 40));
    Way { name, across: 64, walls: vec![0; 4096], bays: [bay].into_iter().chain(others).collect(), row, length }
}

/// Eight squares along the edge, as far apart as a route all the way round allows.
fn around_the_edge() -> Vec<u16> {
    let place = |k: usize| match (k / 63, k % 63) {
        (0, k) => square(k, 0),
        (1, k) => square(63, k),
        (2, k) => square(63 - k, 63),
        (_, k) => square(0, 63 - k),
    };
    (1..=8).map(|k| place(28 * k)).collect()
}

/// The floor without way to the bay, which is searched to the end.
fn walled_in() -> Way {
    let mut case = on_floor("open floor, bay walled in", square(0, 0), vec![square(63, 63)], None);
    case.walls[1] = 1;
    case.walls[64] = 1;
    case
}

/// In a maze a bay in a corner, and squares on one corridor from it, the last as far as a route there and back allows.
fn in_maze(name: &'static str, openings: usize, squares: usize) -> Way {
    let mut random = Random::new(7);
    let mut walls = maze::walls(&mut random, 64, 64);
    maze::open(&mut random, &mut walls, openings);
    let distances = distances(&walls, 64, 0);
    let far = (0..4096).filter(|&square| distances[square].is_some_and(|steps| steps <= 128));
    let far = far.max_by_key(|&square| distances[square]).expect("the bay is at distance 0");
    let path = path(&distances, 64, far);
    let row: Vec<u16> = (1..=squares).map(|k| path[k * (path.len() - 1) / squares] as u16).collect();
    Way { name, across: 64, walls, bays: vec![0], row, length: Some(2 * (path.len() - 1)) }
}

pub fn all() -> Vec<Way> {
    let corner = square(0, 0);
    let corners = [square(63, 63), corner + 1, square(63, 63), corner + 1];
    let apart = corners.into_iter().cycle().take(8).collect();
    vec![
        on_floor("open floor, to the far corner", corner, vec![square(63, 63)], Some(252)),
        on_floor("open floor, eight squares around the edge", corner, around_the_edge(), Some(252)),
        on_floor("open floor, eight squares too far apart", corner, apart, None),
        on_floor("open floor, eight squares nearby", corner, (1..=8).map(|k| square(k, k)).collect(), Some(32)),
        walled_in(),
        in_maze("maze, one square", 0, 1),
        in_maze("maze, eight squares", 0, 8),
        in_maze("maze with openings, one square", 300, 1),
        in_maze("maze with openings, eight squares", 300, 8),
        Way {
            name: "small hall, one square",
            across: 4,
            walls: vec![0; 8],
            bays: vec![0, 3],
            row: vec![6],
            length: Some(6),
        },
    ]
}
