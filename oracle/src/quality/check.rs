//! Holds chosen groups to L9's two bounds, and to document 01's colours. All of it is exact.

use super::least::Groups;
use crate::chosen_cuts::Chosen;
use crate::fraction::Fraction;

/// The error lies within this of the least sum.
pub const ERROR_BOUND: (u64, u64) = (1, 4096);
/// The exact sum of the chosen cut lies within this of it.
pub const SUM_BOUND: (u64, u64) = (1, 2048);

#[derive(Clone, Copy, Debug, PartialEq, Eq)]
pub enum Fault {
    /// Not k groups in a row, each with a level, that hold all levels.
    NoCut,
    /// The colours are not those of the groups.
    Colours,
    /// The error is too far from the least sum, or no number from 0 up.
    Error,
    /// The cut's sum is too far above the least.
    Sum,
    /// The cut's sum is below the least, so that one of the two is wrong.
    BelowLeast,
}

/// What was found of a choice.
#[derive(Clone, Debug)]
pub struct Held {
    pub faults: Vec<Fault>,
    /// How far the error lies from the least, if it is a number from 0 up.
    pub error_off: Option<Fraction>,
    /// How far the cut's sum lies from the least, if it is a cut.
    pub sum_off: Option<Fraction>,
}

/// Holds a choice of k groups to the least sum.
pub fn held(groups: &Groups, k: usize, chosen: &Chosen, least: &Fraction) -> Held {
    let error_off = Fraction::exactly(chosen.error).map(|error| error.distance(least));
    let is_cut = groups.is_cut(k, &chosen.starts);
    let sum = is_cut.then(|| groups.sum(&chosen.starts));
    let sum_off = sum.map(|sum| sum.distance(least));
    let found = [
        (!is_cut, Fault::NoCut),
        (is_cut && !colours_fit(groups, chosen), Fault::Colours),
        (
            !error_off.is_some_and(|off| is_within(&off, ERROR_BOUND)),
            Fault::Error,
        ),
        (
            sum_off.is_some_and(|off| !is_within(&off, SUM_BOUND)),
            Fault::Sum,
        ),
        (sum.is_some_and(|sum| sum < *least), Fault::BelowLeast),
    ];
    let faults = found.into_iter().filter(|(is_so, _)| *is_so);
    Held {
        faults: faults.map(|(_, fault)| fault).collect(),
        error_off,
        sum_off,
    }
}

fn is_within(off: &Fraction, (num, den): (u64, u64)) -> bool {
    *off <= Fraction::new(num, den)
}

fn colours_fit(groups: &Groups, chosen: &Chosen) -> bool {
    let due = groups
        .ranges(&chosen.starts)
        .map(|(start, end)| groups.colour(start, end));
    due.eq(chosen.centers.iter().map(|&center| center.into()))
}
