//! The original's f64 programme once more, with a group's cost of choice, to see what another order
//! of its operations would do. It serves for comparison alone.

use super::least::Groups;
use crate::chosen_cuts::Chosen;
use crate::histogram::Histogram;

/// The cost of a group from its w, s and q.
pub type Cost = fn(f64, f64, f64) -> f64;

pub fn as_the_original(w: f64, s: f64, q: f64) -> f64 {
    q - s * s / w
}

pub fn division_first(w: f64, s: f64, q: f64) -> f64 {
    let mean = s / w;
    (q / w - mean * mean) * w
}

/// The least found for some levels, and where its last group starts.
type Best = (f64, usize);

/// The choices for 1, 2, 3 and more groups. Colours are exact, since the costs alone are looked at.
pub fn programme(histogram: &Histogram, cost: Cost) -> Vec<Chosen> {
    let groups = Groups::of(histogram);
    let cost = |start: usize, end: usize| {
        let [w, s, q] = groups.sums(start, end).map(|sum| sum as f64);
        cost(w, s, q)
    };
    let none: Best = (f64::INFINITY, 0);
    let mut rows = vec![vec![none; groups.levels() + 1]];
    rows[0][0].0 = 0.0;
    for k in histogram.group_counts() {
        let before = &rows[k - 1];
        let best = |end: usize| {
            let sums = (k - 1..end).map(|start| (before[start].0 + cost(start, end), start));
            // The earliest of equal ones.
            sums.fold(none, |best, sum| if sum.0 < best.0 { sum } else { best })
        };
        let row = (0..=groups.levels()).map(best).collect();
        rows.push(row);
    }
    let choice = |k| choice(&groups, &rows[..=k]);
    histogram.group_counts().map(choice).collect()
}

/// Goes back from the last group of the last row's cut of all levels.
fn choice(groups: &Groups, rows: &[Vec<Best>]) -> Chosen {
    let mut starts = vec![];
    let mut end = groups.levels();
    for row in rows.iter().skip(1).rev() {
        end = row[end].1;
        starts.push(end);
    }
    starts.reverse();
    let colour = |(start, end)| groups.colour(start, end) as u16;
    Chosen {
        error: rows[rows.len() - 1][groups.levels()].0.max(0.0),
        centers: groups.ranges(&starts).map(colour).collect(),
        starts,
    }
}
