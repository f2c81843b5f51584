//! Halls as they are in warehouses, and random orders in them.

use crate::plain::Plain;
use shared::call::{AskedNumbers, Entry, FieldNumbers, Ways};
use shared::memory::{LENGTH, MOST_LEFT, PER_SHUTTLE, PLACES};
use shared::random::Random;

const ACROSS: usize = 19;
const DOWN: usize = 14;
/// Every third column of these rows is an aisle.
const RACK_ROWS: [usize; 6] = [3, 4, 5, 8, 9, 10];

pub struct Warehouse {
    pub name: &'static str,
    pub walls: Vec<u8>,
    pub bays: Vec<u16>,
    /// The squares that orders go to.
    goods: Vec<u16>,
}

impl Warehouse {
    /// Two blocks of racks with aisles one square wide, and between them and at both ends two rows to cross.
    pub fn racks(shuttles: usize) -> Warehouse {
        Warehouse::new("racks", shuttles, |row, column| RACK_ROWS.contains(&row) && !column.is_multiple_of(3))
    }

    /// A floor without racks.
    pub fn open(shuttles: usize) -> Warehouse {
        Warehouse::new("open floor", shuttles, |_, _| false)
    }

    /// Bays lie in niches along the last and the first row by turns. Orders go to the squares beside racks, or where these
    /// would be.
    fn new(name: &'static str, shuttles: usize, is_rack: fn(usize, usize) -> bool) -> Warehouse {
        let (niches, on_a_side) = (8, shuttles.div_ceil(2));
        let bay = |i: usize| {
            let column = 2 * (i / 2 * niches / on_a_side);
            if i.is_multiple_of(2) { ACROSS * (DOWN - 1) + column + 1 } else { column + 3 }
        };
        let bays: Vec<u16> = (0..shuttles).map(|i| bay(i) as u16).collect();
        let is_wall = |square: usize| {
            let (row, column) = (square / ACROSS, square % ACROSS);
            let at_end = row == 0 || row == DOWN - 1;
            if at_end { !bays.contains(&(square as u16)) } else { is_rack(row, column) }
        };
        let walls = (0..ACROSS * DOWN).map(|square| u8::from(is_wall(square))).collect();
        let aisle = |square: &usize| RACK_ROWS.contains(&(square / ACROSS)) && (square % ACROSS).is_multiple_of(3);
        let goods = (0..ACROSS * DOWN).filter(aisle).map(|square| square as u16).collect();
        Warehouse { name, walls, bays, goods }
    }

    /// The route of an order: the shortest one through one to three random squares. The same numbers give the same
    /// order, whatever else is asked for.
    pub fn order(&self, night: u64, shuttle: usize, number: usize) -> Vec<u16> {
        let mut random = Random::new((night << 32) ^ ((shuttle as u64) << 24) ^ number as u64);
        let row: Vec<u16> = (0..random.between(1, 3)).map(|_| self.goods[random.below(self.goods.len())]).collect();
        let mut route = [0; MOST_LEFT];
        let asked = AskedNumbers { shuttle: shuttle as u64, from: self.bays[shuttle], row: &row };
        let length = Plain.way(self.field(), asked, &mut route).expect("an order asks for what may be asked for");
        route[..length.expect("every square of the warehouse is within reach")].to_vec()
    }

    pub fn field(&self) -> FieldNumbers<'_> {
        FieldNumbers { across: ACROSS as u64, down: DOWN as u64, walls: &self.walls, bays: &self.bays }
    }

    /// Every shuttle in its bay with nothing left.
    pub fn start(&self) -> Vec<u16> {
        let mut memory = vec![0; PER_SHUTTLE * self.bays.len()];
        Plain.start(self.field(), &mut memory).expect("a warehouse is a field, and its memory as long as it should be");
        memory
    }
}

/// Gives a shuttle in its bay a route.
pub fn take_order(part: &mut [u16], route: &[u16]) {
    part[LENGTH] = route.len() as u16;
    part[PLACES..PLACES + route.len()].copy_from_slice(route);
}
