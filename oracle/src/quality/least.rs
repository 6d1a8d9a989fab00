//! The least sum of q - s·s/w over all cuts of the levels into k groups in a row, worked out in two
//! ways: by forming every cut, and by an exact dynamic programme.

use crate::fraction::Fraction;
use crate::histogram::Histogram;
use std::cmp::Ordering;

/// The whole-number sums of a histogram's groups.
pub struct Groups {
    /// w, s and q of the first levels: of none, of one, of two and so on.
    first: Vec<[u64; 3]>,
}

impl Groups {
    pub fn of(histogram: &Histogram) -> Self {
        let mut first = vec![[0; 3]];
        for bin in histogram.bins() {
            let last = first[first.len() - 1];
            first.push([0, 1, 2].map(|which| last[which] + bin[which]));
        }
        Groups { first }
    }

    pub fn levels(&self) -> usize {
        self.first.len() - 1
    }

    /// w, s and q of the levels from `start` to before `end`.
    pub fn sums(&self, start: usize, end: usize) -> [u64; 3] {
        [0, 1, 2].map(|which| self.first[end][which] - self.first[start][which])
    }

    /// q - s·s/w = (q·w - s·s) / w. Both products are below 2^49.
    pub fn cost(&self, start: usize, end: usize) -> Fraction {
        let [w, s, q] = self.sums(start, end);
        Fraction::new(q * w - s * s, w)
    }

    /// The whole part of (2s + w) / (2w).
    pub fn colour(&self, start: usize, end: usize) -> u64 {
        let [w, s, _] = self.sums(start, end);
        (2 * s + w) / (2 * w)
    }

    /// Whether there are k groups, none of them empty, that hold all levels.
    pub fn is_cut(&self, k: usize, starts: &[usize]) -> bool {
        let ascend = starts.windows(2).all(|pair| pair[0] < pair[1]);
        let inside = starts.iter().all(|&start| start < self.levels());
        starts.len() == k && starts.first() == Some(&0) && ascend && inside
    }

    /// Start and end of each group of a cut.
    pub fn ranges<'a>(&self, starts: &'a [usize]) -> impl Iterator<Item = (usize, usize)> + 'a {
        let levels = self.levels();
        let ends = starts.iter().copied().skip(1).chain([levels]);
        starts.iter().copied().zip(ends)
    }

    pub fn sum(&self, starts: &[usize]) -> Fraction {
        self.ranges(starts)
            .map(|(start, end)| self.cost(start, end))
            .fold(Fraction::new(0, 1), |sum, cost| sum.plus(&cost))
    }
}

/// The least sum of the cuts that were formed.
#[derive(Clone, Copy, Debug)]
pub struct Least {
    pub sum: Fraction,
    /// How many of the cuts have this sum.
    pub cuts: u64,
    /// How many were formed.
    pub formed: u64,
}

/// Of every cut into 1, 2 and up to `most` groups.
pub fn least_by_all_cuts(groups: &Groups, most: usize) -> Vec<Least> {
    let mut walk = Walk {
        groups,
        found: vec![None; most],
    };
    walk.add_group(0, 0, &Fraction::new(0, 1));
    let found = walk.found.into_iter();
    found.map(|least| least.expect("a cut is formed")).collect()
}

struct Walk<'a> {
    groups: &'a Groups,
    /// For one group first.
    found: Vec<Option<Least>>,
}

impl Walk<'_> {
    /// The levels before `start` are in `closed` groups, which have the given sum. The next group
    /// holds all the others, or it ends anywhere before the last and another one follows.
    fn add_group(&mut self, closed: usize, start: usize, sum: &Fraction) {
        let levels = self.groups.levels();
        self.meet(closed, sum.plus(&self.groups.cost(start, levels)));
        if closed + 1 < self.found.len() {
            for end in start + 1..levels {
                let longer = sum.plus(&self.groups.cost(start, end));
                self.add_group(closed + 1, end, &longer);
            }
        }
    }

    fn meet(&mut self, place: usize, sum: Fraction) {
        let least = self.found[place].get_or_insert(Least {
            sum,
            cuts: 0,
            formed: 0,
        });
        least.formed += 1;
        match sum.cmp(&least.sum) {
            Ordering::Less => (least.sum, least.cuts) = (sum, 1),
            Ordering::Equal => least.cuts += 1,
            Ordering::Greater => {}
        }
    }
}

/// For 1, 2 and up to `most` groups: the least of k groups that hold the first levels is the least,
/// over all starts of the last group, of k - 1 groups before it and its own cost.
pub fn least_by_programme(groups: &Groups, most: usize) -> Vec<Fraction> {
    let levels = groups.levels();
    // The least for the first 1, 2, 3 and more levels, where there are enough of them.
    let mut row: Vec<Option<Fraction>> =
        (1..=levels).map(|end| Some(groups.cost(0, end))).collect();
    let mut leasts = vec![];
    for _ in 1..=most {
        leasts.push(row[levels - 1].expect("no more groups than levels"));
        row = (1..=levels)
            .map(|end| with_last(groups, &row, end))
            .collect();
    }
    leasts
}

/// One group more than `row` has, for the levels before `end`.
fn with_last(groups: &Groups, row: &[Option<Fraction>], end: usize) -> Option<Fraction> {
    let sum = |start: usize| Some(row[start - 1]?.plus(&groups.cost(start, end)));
    (1..end).filter_map(sum).min()
}
