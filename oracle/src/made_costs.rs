//! The 301 costs of document 02's L5, worked out with big whole numbers, from the document and not
//! from our crates.

use crate::big::Big;
use crate::lent::{Costs, COSTS};
use std::iter::{once, repeat_n};
use std::sync::LazyLock;

pub use crate::places::default_numbers;

/// What stands before every row, and the greatest probability.
pub const WHOLE: u16 = 32_768;

/// The numbers of an adapted table: mode 1, size 6, rows 4 x 2, colours 7 x 5 x 7.
pub const NUMBERS: usize = 260;

/// Whether 2^c · p^16 ≤ 2^240.
pub fn meets(p: u16, c: u32) -> bool {
    at_most_2_240(&Big::power(p.into(), 16).times(&Big::power(2, c)))
}

fn at_most_2_240(product: &Big) -> bool {
    static BOUND: LazyLock<Big> = LazyLock::new(|| Big::power(2, 240));
    *product <= *BOUND
}

/// The largest c with 2^c · p^16 ≤ 2^240, by trying one after the other. p is from 1 to 32,768, so
/// that 0 is one and 241 is none.
fn largest(p: u16) -> u16 {
    let mut product = Big::power(p.into(), 16);
    let mut c = 0;
    loop {
        product = product.times(&Big::from(2));
        if !at_most_2_240(&product) {
            return c;
        }
        c += 1;
    }
}

/// The cost of p in sixteenths of a bit.
pub fn sixteenths(p: u16) -> u16 {
    static ALL: LazyLock<Vec<u16>> = LazyLock::new(|| (1..=WHOLE).map(largest).collect());
    ALL[usize::from(p) - 1]
}

/// A row of numbers in a table: a colour row has room for seven, of which n colours use n - 1.
#[derive(Clone, Copy, Debug, PartialEq)]
pub struct Row {
    pub at: usize,
    pub used: usize,
    pub room: usize,
}

/// The rows in their order.
pub fn rows() -> Vec<Row> {
    let head = [(1, 1), (6, 6)].into_iter().chain(repeat_n((2, 2), 4));
    let colors = (2..=8).flat_map(|n| repeat_n((n - 1, 7), 5));
    let mut at = 0;
    let placed = head.chain(colors).map(|(used, room)| {
        at += room;
        Row {
            at: at - room,
            used,
            room,
        }
    });
    placed.collect()
}

/// What a table of costs is asked with, and what it answers: zeros after a refusal.
#[derive(Clone, Debug)]
pub struct Made {
    pub number: u32,
    pub costs: Box<Costs>,
}

/// The costs from an adapted table; none is lent where its length is 0.
pub fn made_costs(adapted: &[u16]) -> Made {
    let number = made_number(adapted);
    let costs = match number {
        0 if adapted.is_empty() => costs_from(&default_numbers()),
        0 => costs_from(adapted),
        _ => Box::new([0.0; COSTS]),
    };
    Made { number, costs }
}

/// 0, 24 or 25.
fn made_number(adapted: &[u16]) -> u32 {
    let falls = |row: &Row| row_is_sound(&adapted[row.at..][..row.room], row.used);
    match adapted.len() {
        0 => 0,
        NUMBERS if rows().iter().all(falls) => 0,
        NUMBERS => 25,
        _ => 24,
    }
}

/// The used numbers fall from below 32,768 to above 0; the others are 0.
fn row_is_sound(numbers: &[u16], used: usize) -> bool {
    let (used, unused) = numbers.split_at(used);
    let fall: Vec<u16> = with_ends(used).collect();
    fall.windows(2).all(|pair| pair[0] > pair[1]) && unused.iter().all(|&number| number == 0)
}

/// 32,768 before the row and 0 after it.
fn with_ends(used: &[u16]) -> impl Iterator<Item = u16> + '_ {
    once(WHOLE).chain(used.iter().copied()).chain(once(0))
}

/// A row has one symbol more than it uses numbers. The costs have as many places more.
fn costs_from(numbers: &[u16]) -> Box<Costs> {
    let mut costs = Vec::with_capacity(COSTS);
    for Row { at, used, room } in rows() {
        let ends: Vec<u16> = with_ends(&numbers[at..][..used]).collect();
        let cost = |pair: &[u16]| f32::from(sixteenths(pair[0] - pair[1])) / 16.0;
        costs.extend(ends.windows(2).map(cost));
        costs.extend(repeat_n(0.0, room - used));
    }
    costs.try_into().expect("301 costs")
}
