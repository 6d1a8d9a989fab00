//! The map searches that the original makes for a block, and what the estimate of its answer is made
//! of, as its counted copy tells them.

use crate::av2::counted;
use crate::check::Asked;
use crate::lent;
use crate::original::{found_from, Block, Found};
use std::cell::{Cell, RefCell};

/// One call of the original's `build_map`.
#[derive(Clone, Copy, Debug, PartialEq)]
pub struct MapSearch {
    pub colors: usize,
    pub transposed: bool,
    /// The lines reached, with the one in which the bound stops it.
    pub lines: usize,
    /// How often the original asks for the context of a constant candidate.
    pub asked: usize,
}

/// What the estimate is made of: the original's `head` and `mbits`.
#[derive(Clone, Copy, Debug, Default, PartialEq)]
pub struct Split {
    pub head: f32,
    pub map_bits: f32,
}

pub struct Counted {
    /// What the counted copy answers.
    pub found: Option<Found>,
    /// In the order in which they are made.
    pub map_searches: Vec<MapSearch>,
    /// Of the answer; zeros if there is none.
    pub split: Split,
}

thread_local! {
    static MADE: RefCell<Vec<MapSearch>> = const { RefCell::new(Vec::new()) };
    static STANDING: Cell<Split> = const { Cell::new(Split { head: 0.0, map_bits: 0.0 }) };
}

/// Called by the counted copy where a map search begins.
pub(crate) fn begin(colors: usize, transposed: bool) {
    let begun = MapSearch {
        colors,
        transposed,
        lines: 0,
        asked: 0,
    };
    MADE.with_borrow_mut(|made| made.push(begun));
}

/// Called at the head of each line.
pub(crate) fn reach_line() {
    with_last(|last| last.lines += 1);
}

/// Called where a constant candidate asks.
pub(crate) fn ask() {
    with_last(|last| last.asked += 1);
}

/// Called where a map is the best so far; the last one is the answer.
pub(crate) fn stand(head: f32, map_bits: f32) {
    STANDING.set(Split { head, map_bits });
}

fn with_last(count: impl FnOnce(&mut MapSearch)) {
    MADE.with_borrow_mut(|made| count(made.last_mut().expect("a map search has begun")));
}

found_from!(counted::Palette);

/// Searches by the counted copy. Like the original, it takes only what tests 1 to 7 let through.
pub fn counted_search(asked: &Asked) -> Counted {
    lent::lend(asked.costs.try_into().expect("test 5 passed"));
    let found = counted::search(asked.samples, asked.w, asked.h, asked.bd, asked.lambda);
    Counted {
        found: found.map(Found::from),
        map_searches: MADE.take(),
        split: STANDING.take(),
    }
}

/// None for a block that document 01 refuses by 8, 9 or 10.
pub fn map_searches(block: &Block) -> Vec<MapSearch> {
    counted_search(&block.into()).map_searches
}
