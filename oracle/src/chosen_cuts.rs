//! The groups that the original cuts levels into, as its counted copy tells them.

use crate::av2::counted;
use crate::check::top;
use crate::histogram::{Histogram, MOST_GROUPS};
use std::cell::RefCell;

/// The type of the original's `dp_centers`.
pub(crate) type Centers = fn(&[(f64, f64, f64)], usize, f64) -> Vec<(Vec<u16>, f64)>;

/// The choice for one number of groups.
#[derive(Clone, Debug, PartialEq)]
pub struct Chosen {
    /// The number of each group's first level, those of the first group first.
    pub starts: Vec<usize>,
    /// What is handed on as the error of these groups.
    pub error: f64,
    pub centers: Vec<u16>,
}

thread_local! {
    /// Nothing is kept but while `chosen` asks, since a search cuts levels too.
    static TOLD: RefCell<Option<Vec<usize>>> = const { RefCell::new(None) };
}

/// Called by the counted copy for each group of a chosen cut, the last group first.
pub(crate) fn start(first_level: usize) {
    TOLD.with_borrow_mut(|told| {
        if let Some(starts) = told {
            starts.push(first_level);
        }
    });
}

/// How many starts are kept at present.
pub fn kept() -> usize {
    TOLD.with_borrow(|told| told.as_ref().map_or(0, Vec::len))
}

/// The choices of the original for 1, 2, 3 and more groups.
pub fn chosen(histogram: &Histogram) -> Vec<Chosen> {
    let bin = |sums: [u64; 3]| {
        let [w, s, q] = sums.map(|sum| sum as f64);
        (w, s, q)
    };
    let bins: Vec<_> = histogram.bins().map(bin).collect();
    TOLD.set(Some(Vec::new()));
    let made = counted::CENTERS(&bins, MOST_GROUPS, top(histogram.bd).into());
    let told = TOLD.take().expect("set above");
    let all = made.len() * (made.len() + 1) / 2;
    assert_eq!(told.len(), all, "a start is told for each group");
    let mut told = told.into_iter();
    let choice = |(k, (centers, error)): (usize, (Vec<u16>, f64))| {
        let mut starts: Vec<usize> = told.by_ref().take(k).collect();
        starts.reverse();
        Chosen {
            starts,
            error,
            centers,
        }
    };
    (1..).zip(made).map(choice).collect()
}
