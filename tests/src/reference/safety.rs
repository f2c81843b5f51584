//! Whether all is safe: whether the shuttles can be put in an order in which each could run all that is left to it
//! while those behind it in the order are on the squares they are on now. Found in three ways that share no code
//! but the rule of who is in whose way, and compared with each other wherever that is affordable.

use super::fleet::Shuttle;
use shared::random::Random;

pub struct Safety {
    /// Chooses the cases that are tried by all subsets; set anew for each hall, so that one can be run alone.
    pub random: Random,
    pub asked: u64,
    pub by_all_orders: u64,
    pub by_subsets: u64,
}

/// All orders are tried up to this many shuttles.
const ALL_ORDERS_UP_TO: usize = 4;
/// Above, all subsets are tried in one case of so many.
const SUBSETS_ONE_IN: usize = 100;

impl Safety {
    pub fn new(random: Random) -> Safety {
        Safety { random, asked: 0, by_all_orders: 0, by_subsets: 0 }
    }

    pub fn all_safe(&mut self, fleet: &[Shuttle]) -> bool {
        let safe = by_taking_out(fleet);
        self.asked += 1;
        let few = fleet.len() <= ALL_ORDERS_UP_TO;
        if few {
            self.by_all_orders += 1;
            assert_eq!(by_all_orders(fleet), safe, "all orders and taking out differ: {fleet:?}");
        }
        if few || self.random.one_in(SUBSETS_ONE_IN) {
            self.by_subsets += 1;
            assert_eq!(by_subsets(fleet), safe, "all subsets and taking out differ: {fleet:?}");
        }
        safe
    }
}

/// Whether the square that the other is on is among what is left to this one.
fn in_the_way(this: &Shuttle, other: &Shuttle) -> bool {
    this.left.contains(&other.square)
}

pub fn by_all_orders(fleet: &[Shuttle]) -> bool {
    let runs = |order: &Vec<usize>| {
        (0..order.len()).all(|k| order[k + 1..].iter().all(|&behind| !in_the_way(&fleet[order[k]], &fleet[behind])))
    };
    orders(fleet.len()).iter().any(runs)
}

/// Every order of the numbers below `count`.
fn orders(count: usize) -> Vec<Vec<usize>> {
    let Some(last) = count.checked_sub(1) else {
        return vec![Vec::new()];
    };
    let with_last = |order: &Vec<usize>, place: usize| {
        let mut longer = order.clone();
        longer.insert(place, last);
        longer
    };
    orders(last).iter().flat_map(|order| (0..count).map(move |place| with_last(order, place))).collect()
}

/// For every set of shuttles, smaller ones first, whether those in it can be put in such an order.
pub fn by_subsets(fleet: &[Shuttle]) -> bool {
    let blockers: Vec<usize> = (0..fleet.len()).map(|i| blockers(fleet, i)).collect();
    let mut runs = vec![false; 1 << fleet.len()];
    runs[0] = true;
    for set in 1..runs.len() {
        runs[set] = (0..fleet.len()).any(|i| set & (1 << i) != 0 && blockers[i] & set == 0 && runs[set & !(1 << i)]);
    }
    runs[runs.len() - 1]
}

/// The set of those that are in the way of shuttle i.
fn blockers(fleet: &[Shuttle], i: usize) -> usize {
    (0..fleet.len()).filter(|&j| j != i && in_the_way(&fleet[i], &fleet[j])).fold(0, |set, j| set | 1 << j)
}

/// Takes out, again and again, any shuttle that can run.
pub fn by_taking_out(fleet: &[Shuttle]) -> bool {
    let mut remaining: Vec<&Shuttle> = fleet.iter().collect();
    while let Some(first) = (0..remaining.len()).find(|&k| can_run(&remaining, k)) {
        remaining.remove(first);
    }
    remaining.is_empty()
}

fn can_run(remaining: &[&Shuttle], k: usize) -> bool {
    remaining.iter().enumerate().all(|(other, shuttle)| other == k || !in_the_way(remaining[k], shuttle))
}
