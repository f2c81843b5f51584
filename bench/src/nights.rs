//! How many ticks nights take until all are home, beside the bound that is proved.

use crate::plain::Plain;
use crate::warehouse::{Warehouse, take_order};
use shared::call::{Ticks, TurnNumbers};
use shared::memory::{LENGTH, MARK, PER_SHUTTLE};

const NIGHTS: u64 = 20;

struct Night {
    left: u64,
    ticks: u64,
}

impl Night {
    fn bound(&self, after: u64) -> u64 {
        (self.left + 1) * after.max(1)
    }

    /// Each shuttle has one order, and each arrival comes so many ticks after its step.
    fn drive(warehouse: &Warehouse, number: u64, after: u64) -> Night {
        let count = warehouse.bays.len();
        let mut memory = warehouse.start();
        for (i, part) in memory.chunks_exact_mut(PER_SHUTTLE).enumerate() {
            take_order(part, &warehouse.order(number, i, 0));
        }
        let left = memory.chunks(PER_SHUTTLE).map(|part| u64::from(part[LENGTH])).sum();
        let mut night = Night { left, ticks: 0 };
        let (mut waits, mut ages) = (vec![0; count], vec![0; count]);
        while memory.chunks(PER_SHUTTLE).any(|part| part[MARK] == 1 || part[LENGTH] > 0) {
            ages.iter_mut().for_each(|age| *age += 1);
            let due: Vec<u8> = ages.iter().map(|&age| u8::from(age >= after)).collect();
            let turns = TurnNumbers { waits: &mut waits, due: &due };
            let granted = Plain.tick(warehouse.field(), &mut memory, turns);
            if let Some(i) = granted.expect("a tick of a night is never refused") {
                ages[i] = 0;
            }
            night.ticks += 1;
        }
        night
    }
}

pub fn print() {
    println!("\n## The bound on coming home\n");
    println!(
        "If each arrival comes within d ticks of its step, all are home within (L + 1) * max(d, 1) ticks, L being the \
         squares left in sum. Beside it what {NIGHTS} random nights took, in each of which every shuttle has one order \
         and every arrival comes as late as it may; means, and the night that came nearest to the bound.\n"
    );
    println!("| Hall | Shuttles | d | L | bound | took | nearest |");
    println!("|---|---:|---:|---:|---:|---:|---:|");
    let halls: [fn(usize) -> Warehouse; 2] = [Warehouse::racks, Warehouse::open];
    for hall in halls {
        for shuttles in [4, 8, 16] {
            [1, 4, 16].into_iter().for_each(|after| print_line(&hall(shuttles), after));
        }
    }
}

fn print_line(warehouse: &Warehouse, after: u64) {
    let nights: Vec<Night> = (0..NIGHTS).map(|number| Night::drive(warehouse, number, after)).collect();
    let mean = |of: &dyn Fn(&Night) -> u64| nights.iter().map(of).sum::<u64>() / NIGHTS;
    let nearest = nights.iter().map(|night| 100 * night.ticks / night.bound(after)).max().unwrap_or(0);
    println!(
        "| {} | {} | {after} | {} | {} | {} | {nearest} % |",
        warehouse.name,
        warehouse.bays.len(),
        mean(&|night| night.left),
        mean(&|night| night.bound(after)),
        mean(&|night| night.ticks)
    );
}
