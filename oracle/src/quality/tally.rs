//! What a run over histograms found, added up and printed.

use super::check::{Held, ERROR_BOUND, SUM_BOUND};
use super::least::Least;
use crate::fraction::Fraction;
use crate::histogram::MOST_GROUPS;
use std::collections::BTreeMap;
use std::fmt::{self, Display, Formatter};

const SHOWN: usize = 20;

/// The greatest of some distances, rounded, for printing only.
#[derive(Clone, Copy, Debug, Default, PartialEq)]
pub struct Worst(f64);

impl Worst {
    pub fn meet(&mut self, off: Option<Fraction>) {
        self.0 = off
            .map_or(f64::INFINITY, |off| off.approximate())
            .max(self.0);
    }

    /// In hundredths of the bound.
    fn share(self, (num, den): (u64, u64)) -> f64 {
        100.0 * self.0 * den as f64 / num as f64
    }
}

/// The cases of some numbers of groups.
#[derive(Clone, Copy, Debug, Default, PartialEq)]
pub struct Cases {
    pub cases: u64,
    pub error: Worst,
    pub sum: Worst,
    /// Cuts whose sum is not exactly the least.
    pub not_least: u64,
}

impl Cases {
    pub fn meet(&mut self, held: &Held) {
        self.cases += 1;
        self.error.meet(held.error_off);
        self.sum.meet(held.sum_off);
        self.not_least += u64::from(held.sum_off != Some(Fraction::new(0, 1)));
    }

    fn add(&mut self, other: &Cases) {
        self.cases += other.cases;
        self.error.0 = self.error.0.max(other.error.0);
        self.sum.0 = self.sum.0.max(other.sum.0);
        self.not_least += other.not_least;
    }
}

impl Display for Cases {
    fn fmt(&self, f: &mut Formatter<'_>) -> fmt::Result {
        let columns = [(self.error, ERROR_BOUND), (self.sum, SUM_BOUND)];
        write!(f, "{:>9}", self.cases)?;
        for (worst, bound) in columns {
            write!(f, "{:>16.1e}{:>10.3}%", worst.0, worst.share(bound))?;
        }
        write!(f, "{:>11}", self.not_least)
    }
}

/// What another way of choosing groups would have done.
#[derive(Clone, Copy, Debug, Default, PartialEq)]
pub struct Other {
    pub all: Cases,
    /// Not the original's cut.
    pub other_cut: u64,
    pub error_outside: u64,
    pub sum_outside: u64,
    /// With any fault.
    pub refused: u64,
}

impl Other {
    fn add(&mut self, other: &Other) {
        self.all.add(&other.all);
        self.other_cut += other.other_cut;
        self.error_outside += other.error_outside;
        self.sum_outside += other.sum_outside;
        self.refused += other.refused;
    }
}

impl Display for Other {
    fn fmt(&self, f: &mut Formatter<'_>) -> fmt::Result {
        let Cases {
            cases, not_least, ..
        } = self.all;
        let (error, sum) = (self.error_outside, self.sum_outside);
        let (cut, refused) = (self.other_cut, self.refused);
        write!(
            f,
            "cases {cases}, error outside {error}, sum outside {sum}, "
        )?;
        write!(
            f,
            "another cut {cut}, not least {not_least}, refused {refused}"
        )
    }
}

#[derive(Debug, Default, PartialEq)]
pub struct Tally {
    histograms: u64,
    kinds: BTreeMap<String, u64>,
    /// For one group first.
    by_groups: [Cases; MOST_GROUPS],
    /// Histograms of which every cut was formed, those with several least cuts for some number of
    /// groups, and the cuts.
    all_formed: u64,
    tied: u64,
    formed: u64,
    /// Cases whose least visited cut is not a least one, and by how much it is above.
    visited_above: u64,
    visited: Worst,
    pub divided: Other,
    pub dropped: Other,
    /// How many are wrong, and the first of them in words.
    wrong: u64,
    shown: Vec<(u64, String)>,
}

impl Tally {
    pub fn drawn(&mut self, names: impl IntoIterator<Item = String>) {
        self.histograms += 1;
        for name in names {
            *self.kinds.entry(name).or_default() += 1;
        }
    }

    pub fn formed(&mut self, leasts: &[Least]) {
        self.all_formed += 1;
        self.tied += u64::from(leasts.iter().any(|least| least.cuts > 1));
        self.formed += leasts.iter().map(|least| least.formed).sum::<u64>();
    }

    /// How far the least visited cut's sum lies from the least.
    pub fn visit(&mut self, off: Fraction) {
        self.visited_above += u64::from(off != Fraction::new(0, 1));
        self.visited.meet(Some(off));
    }

    pub fn hold(&mut self, index: u64, k: usize, held: &Held) {
        self.by_groups[k - 1].meet(held);
        if !held.faults.is_empty() {
            self.wrong(index, format!("{k} groups: {:?}", held.faults));
        }
    }

    pub fn wrong(&mut self, index: u64, what: String) {
        self.wrong += 1;
        if self.shown.len() < SHOWN {
            self.shown.push((index, what));
        }
    }

    /// Takes in what another thread found.
    pub fn add(&mut self, other: Tally) {
        self.histograms += other.histograms;
        self.all_formed += other.all_formed;
        self.tied += other.tied;
        self.formed += other.formed;
        self.wrong += other.wrong;
        self.visited_above += other.visited_above;
        self.visited.0 = self.visited.0.max(other.visited.0);
        self.divided.add(&other.divided);
        self.dropped.add(&other.dropped);
        for (mine, others) in self.by_groups.iter_mut().zip(&other.by_groups) {
            mine.add(others);
        }
        for (kind, count) in other.kinds {
            *self.kinds.entry(kind).or_default() += count;
        }
        self.shown.extend(other.shown);
        self.shown.sort();
        self.shown.truncate(SHOWN);
    }

    pub fn all_within(&self) -> bool {
        self.wrong == 0
    }

    fn all_cases(&self) -> Cases {
        let mut all = Cases::default();
        self.by_groups.iter().for_each(|cases| all.add(cases));
        all
    }
}

const HEAD: &str = "groups  cases |error - least|  of 1/4096     sum - least  of 1/2048  not least";

impl Display for Tally {
    fn fmt(&self, f: &mut Formatter<'_>) -> fmt::Result {
        for (index, what) in &self.shown {
            writeln!(f, "histogram {index}: {what}")?;
        }
        for (kind, count) in &self.kinds {
            writeln!(f, "{kind:<28}{count:>10}")?;
        }
        writeln!(f, "{HEAD}")?;
        for (k, cases) in (1..).zip(&self.by_groups) {
            writeln!(f, "{k:>4}{cases}")?;
        }
        writeln!(f, " all{}", self.all_cases())?;
        let (formed, cuts, tied) = (self.all_formed, self.formed, self.tied);
        write!(f, "all cuts formed of {formed} histograms, {cuts} cuts; ")?;
        writeln!(f, "several least cuts in {tied} of them")?;
        let (above, worst) = (self.visited_above, self.visited.0);
        write!(f, "for comparison, the least of the visited cuts: ")?;
        writeln!(f, "above the least in {above} cases, by up to {worst:.1e}")?;
        writeln!(f, "for comparison, the division first: {}", self.divided)?;
        let worst = self.divided.all.error;
        let share = worst.share(ERROR_BOUND);
        writeln!(
            f,
            "    worst |error - least| {:.1e}, {share:.3}% of 1/4096",
            worst.0
        )?;
        writeln!(
            f,
            "for comparison, the last level dropped: {}",
            self.dropped
        )?;
        let (histograms, cases) = (self.histograms, self.all_cases().cases);
        let wrong = self.wrong;
        write!(f, "histograms {histograms}, cases {cases}, outside {wrong}")
    }
}
