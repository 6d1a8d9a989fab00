//! The least sum of those cuts alone that the original adds up. L9's least is over all cuts; this
//! shows that the two are not the same.

use super::least::Groups;
use crate::chosen_cuts::{chosen, Chosen};
use crate::fraction::Fraction;
use crate::histogram::Histogram;

/// For 1, 2, 3 and more groups. For each start of the last group the original adds its cost to that
/// of the groups which it has chosen for the levels before.
pub fn least_visited(histogram: &Histogram) -> Vec<Fraction> {
    let groups = Groups::of(histogram);
    let before: Vec<Vec<Chosen>> = (0..groups.levels())
        .map(|count| chosen(&first(histogram, count)))
        .collect();
    let visited = |k: usize| {
        let cut = |start: usize| match k {
            1 => vec![0],
            _ => [&before[start][k - 2].starts[..], &[start]].concat(),
        };
        let starts = if k == 1 { 0..1 } else { k - 1..groups.levels() };
        starts.map(|start| groups.sum(&cut(start))).min()
    };
    let least = |k| visited(k).expect("no more groups than levels");
    histogram.group_counts().map(least).collect()
}

/// The first levels alone.
fn first(histogram: &Histogram, count: usize) -> Histogram {
    Histogram {
        bd: histogram.bd,
        levels: histogram.levels[..count].to_vec(),
        counts: histogram.counts[..count].to_vec(),
    }
}
