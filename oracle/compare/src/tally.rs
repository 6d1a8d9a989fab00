//! Cases counted by kind, the first differences in words, and the times of both sides.

use std::collections::BTreeMap;
use std::fmt::{self, Display, Formatter};
use std::time::Duration;

const SHOWN: usize = 20;

#[derive(Default)]
pub struct Tally {
    cases: u64,
    differences: u64,
    /// The first differing cases, each with what differs.
    shown: Vec<(u64, String)>,
    kinds: BTreeMap<String, u64>,
    ours: Duration,
    beside: Duration,
    /// Whose time `beside` is.
    name: &'static str,
}

impl Tally {
    pub fn kind(&mut self, group: &str, name: impl Display) {
        *self.kinds.entry(format!("{group}={name}")).or_default() += 1;
    }

    /// Ends a case with the names of what differs, given as pairs of a name and whether ours and
    /// the original's are the same.
    pub fn case(&mut self, index: u64, same: &[(&str, bool)]) {
        self.cases += 1;
        let differing: Vec<&str> = same.iter().filter(|s| !s.1).map(|s| s.0).collect();
        if differing.is_empty() {
            return;
        }
        self.differences += 1;
        if self.shown.len() < SHOWN {
            self.shown.push((index, differing.join(", ")));
        }
    }

    pub fn time(&mut self, ours: Duration, original: Duration) {
        self.time_beside("the original's", ours, original);
    }

    pub fn time_beside(&mut self, name: &'static str, ours: Duration, beside: Duration) {
        self.name = name;
        self.ours += ours;
        self.beside += beside;
    }

    /// Takes in the cases of another.
    pub fn add(&mut self, other: Tally) {
        self.cases += other.cases;
        self.differences += other.differences;
        self.shown.extend(other.shown);
        self.shown.sort();
        self.shown.truncate(SHOWN);
        for (kind, count) in other.kinds {
            *self.kinds.entry(kind).or_default() += count;
        }
        if !other.name.is_empty() {
            self.time_beside(other.name, other.ours, other.beside);
        }
    }

    pub fn all_same(&self) -> bool {
        self.differences == 0
    }
}

impl Display for Tally {
    fn fmt(&self, f: &mut Formatter<'_>) -> fmt::Result {
        for (index, what) in &self.shown {
            writeln!(f, "case {index} differs: {what}")?;
        }
        for (kind, count) in &self.kinds {
            writeln!(f, "{kind:<28}{count:>10}")?;
        }
        write!(f, "cases {}, differences {}", self.cases, self.differences)?;
        if self.beside.is_zero() {
            return Ok(());
        }
        let (ours, beside) = (self.ours.as_secs_f64(), self.beside.as_secs_f64());
        let (name, ratio) = (self.name, ours / beside);
        write!(
            f,
            "\naccepted cases: ours {ours:.2} s, {name} {beside:.2} s, ratio {ratio:.2}"
        )
    }
}
