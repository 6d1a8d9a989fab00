//! Levels with their counts, as a block has them.

/// The most levels of an accepted block, and the most cells.
pub const MOST_LEVELS: usize = 32;
pub const MOST_CELLS: usize = 4096;

/// The most groups that the levels are cut into.
pub const MOST_GROUPS: usize = 8;

#[derive(Clone, Debug, PartialEq)]
pub struct Histogram {
    pub bd: u32,
    /// Ascending and distinct, up to 2^bd - 1.
    pub levels: Vec<u32>,
    /// How many cells have each level, at least 1.
    pub counts: Vec<u32>,
}

impl Histogram {
    /// The numbers of groups that the levels are cut into.
    pub fn group_counts(&self) -> std::ops::RangeInclusive<usize> {
        1..=self.levels.len().min(MOST_GROUPS)
    }

    /// Of each level its w, s and q: count, count · level, count · level².
    pub fn bins(&self) -> impl Iterator<Item = [u64; 3]> + '_ {
        let bin = |(&level, &count): (&u32, &u32)| {
            let (level, count) = (u64::from(level), u64::from(count));
            [count, count * level, count * level * level]
        };
        self.levels.iter().zip(&self.counts).map(bin)
    }
}
