//! What the rule is worth in a hall: nights of random orders, driven by different rules on the same orders.

use crate::rules::{self, Rule};
use crate::warehouse::{Warehouse, take_order};
use crate::{plain, plain_tick};
use shared::memory::{LENGTH, MARK, PER_SHUTTLE};

/// Ticks in a night.
const TICKS: usize = 8000;
/// How many ticks after its step a shuttle arrives. With at most sixteen shuttles one step a tick is then enough for
/// all, so that only the rule can hold one up.
const ARRIVES_AFTER: usize = 16;
/// Nights of each kind.
const NIGHTS: u64 = 10;
pub const SHUTTLES: [usize; 7] = [4, 6, 8, 10, 12, 14, 16];

/// What a rule did with the nights of one hall, on the mean.
#[derive(Clone, Copy, Default)]
pub struct Done {
    pub orders: f64,
    pub under_way: f64,
    /// In how many nights of a hundred a ring came.
    pub rings: f64,
    /// After how many ticks, on the mean over these nights.
    pub ring_after: f64,
}

/// One kind of hall with so many shuttles, and what each rule did.
pub struct Line {
    pub hall: &'static str,
    pub shuttles: usize,
    pub done: [Done; Rule::ALL.len()],
}

pub fn all() -> Vec<Line> {
    let halls: [fn(usize) -> Warehouse; 2] = [Warehouse::racks, Warehouse::open];
    let line = |shuttles: usize, hall: fn(usize) -> Warehouse| {
        let warehouse = hall(shuttles);
        Line { hall: warehouse.name, shuttles, done: Rule::ALL.map(|rule| nights(&warehouse, rule)) }
    };
    halls.into_iter().flat_map(|hall| SHUTTLES.map(|shuttles| line(shuttles, hall))).collect()
}

fn nights(warehouse: &Warehouse, rule: Rule) -> Done {
    let nights: Vec<Night> = (0..NIGHTS).map(|number| Night::drive(warehouse, rule, number)).collect();
    let rings: Vec<f64> = nights.iter().filter_map(|night| night.ring_after).map(|tick| tick as f64).collect();
    let mean = |of: fn(&Night) -> usize| nights.iter().map(of).sum::<usize>() as f64 / NIGHTS as f64;
    Done {
        orders: mean(|night| night.orders),
        under_way: mean(|night| night.under_way) / TICKS as f64,
        rings: 100.0 * rings.len() as f64 / NIGHTS as f64,
        ring_after: rings.iter().sum::<f64>() / rings.len().max(1) as f64,
    }
}

struct Night {
    /// Orders whose shuttles have come home.
    orders: usize,
    /// Shuttles under way, summed over the ticks.
    under_way: usize,
    ring_after: Option<usize>,
}

impl Night {
    /// Every shuttle is given its next order as soon as it is home.
    fn drive(warehouse: &Warehouse, rule: Rule, number: u64) -> Night {
        let bays = &warehouse.bays;
        let mut memory = warehouse.start();
        let mut waits = vec![0; bays.len()];
        let mut ages = vec![0; bays.len()];
        let mut given = vec![0; bays.len()];
        let mut night = Night { orders: 0, under_way: 0, ring_after: None };
        for tick in 0..TICKS {
            for (i, part) in memory.chunks_exact_mut(PER_SHUTTLE).enumerate().filter(|(_, part)| is_idle(part)) {
                night.orders += usize::from(given[i] > 0);
                take_order(part, &warehouse.order(number, i, given[i]));
                given[i] += 1;
            }
            ages.iter_mut().for_each(|age| *age += 1);
            let due: Vec<u8> = ages.iter().map(|&age| u8::from(age >= ARRIVES_AFTER)).collect();
            let may_step = |fleet: &plain::Fleet, memory: &[u16], i: usize| rule.may_step(bays, fleet, memory, i);
            if let Some(i) = plain_tick::make(&mut memory, &mut waits, &due, may_step) {
                ages[i] = 0;
            }
            night.look(bays, &memory, rule, tick);
        }
        night
    }

    fn look(&mut self, bays: &[u16], memory: &[u16], rule: Rule, tick: usize) {
        let fleet = plain::fleet(memory);
        self.under_way += (0..bays.len()).filter(|&i| rules::is_under_way(bays, &fleet, i)).count();
        let looks_for_rings = rule != Rule::NoneInTheWay && self.ring_after.is_none();
        if looks_for_rings && rules::has_ring(&fleet, memory, bays.len()) {
            self.ring_after = Some(tick);
        }
    }
}

fn is_idle(part: &[u16]) -> bool {
    part[MARK] == 0 && part[LENGTH] == 0
}

pub fn print(lines: &[Line]) {
    println!("\n## What the rule is worth\n");
    println!(
        "Orders done in a night of {TICKS} ticks, mean of {NIGHTS} nights. Every shuttle is given its next order, the \
         shortest route through one to three random squares, as soon as it is home; the orders are the same for every \
         rule. A step takes {ARRIVES_AFTER} ticks, and in each tick the one that has waited longest goes first."
    );
    println!();
    println!("- **ours**: the rule of the hall.");
    println!("- **one at a time**: a shuttle leaves its bay only while all others are in theirs.");
    println!(
        "- **whole routes**: reserved before leaving; each square is given back once it was passed for the last time."
    );
    println!("- **next square only**: a step is made if its square is free. Rings come: nobody in one moves again.");
    println!("- **none in the way**: shuttles pass through each other, as the bound.\n");
    println!("![Orders done by the number of shuttles](throughput.svg)\n");
    let names: Vec<&str> = Rule::ALL.iter().map(|rule| rule.name()).collect();
    println!("| Hall | Shuttles | {} |", names.join(" | "));
    println!("|---|---:|{}", "---:|".repeat(names.len()));
    for Line { hall, shuttles, done } in lines {
        let orders: Vec<String> = done.iter().map(|done| format!("{:.0}", done.orders)).collect();
        println!("| {hall} | {shuttles} | {} |", orders.join(" | "));
    }
    print_under_way(lines, &names);
}

fn print_under_way(lines: &[Line], names: &[&str]) {
    println!(
        "\nShuttles under way, those that are stuck among them, mean over the ticks; and in how many nights of a \
         hundred a ring came if only next squares are looked at, and after how many ticks. With no other rule one came.\n"
    );
    println!("| Hall | Shuttles | {} | nights with a ring | after ticks |", names.join(" | "));
    println!("|---|---:|{}---:|---:|", "---:|".repeat(names.len()));
    for Line { hall, shuttles, done } in lines {
        let under_way: Vec<String> = done.iter().map(|done| format!("{:.1}", done.under_way)).collect();
        let others = Rule::ALL.iter().zip(done).filter(|(rule, _)| **rule != Rule::NextSquare);
        others.for_each(|(rule, done)| assert_eq!(done.rings, 0.0, "a ring came by the rule {}", rule.name()));
        let [.., next_square, _] = done;
        let after = if next_square.rings > 0.0 { format!("{:.0}", next_square.ring_after) } else { "-".to_string() };
        println!("| {hall} | {shuttles} | {} | {:.0} % | {after} |", under_way.join(" | "), next_square.rings);
    }
}
