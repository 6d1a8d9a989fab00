//! The adapted tables that the crate `replay_costs` is run on, and the lines that it must print.

use crate::generate::adapted::{table, TableKinds};
use crate::made_costs::{made_costs, sixteenths, Made, WHOLE};
use crate::replay::{hash, put_pair};

/// What the crate's buffer holds.
const PLACES: usize = 600;

pub struct ReplayedTable {
    pub numbers: Vec<u16>,
    pub kinds: TableKinds,
    pub made: Made,
}

/// The first tables of a seed that the crate's buffer holds.
pub fn replayed_tables(seed: u64, count: usize) -> impl Iterator<Item = ReplayedTable> {
    (0..)
        .map(move |index| drawn(seed, index))
        .filter(|replayed| replayed.numbers.len() <= PLACES)
        .take(count)
}

fn drawn(seed: u64, index: u64) -> ReplayedTable {
    let (numbers, kinds) = table(seed, index);
    let made = made_costs(&numbers);
    ReplayedTable {
        numbers,
        kinds,
        made,
    }
}

/// The bytes of a table: its length, then its numbers.
pub fn bytes(replayed: &ReplayedTable) -> Vec<u8> {
    let mut bytes = vec![];
    put_pair(&mut bytes, replayed.numbers.len() as u16);
    for &number in &replayed.numbers {
        put_pair(&mut bytes, number);
    }
    bytes
}

/// The place is counted from 1.
pub fn line(place: usize, replayed: &ReplayedTable) -> String {
    let Made { number, costs } = &replayed.made;
    let bits = hash(costs.iter().map(|cost| cost.to_bits()));
    format!("{place} {number} {bits}")
}

/// What is printed ahead of the tables' lines: each p with its cost in sixteenths, where that is
/// not the cost of the p before.
pub fn steps() -> String {
    let begins = |p: &u16| *p == 1 || sixteenths(*p) != sixteenths(*p - 1);
    (1..=WHOLE)
        .filter(begins)
        .map(|p| format!("{p} {}\n", sixteenths(p)))
        .collect()
}
