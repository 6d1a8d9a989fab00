//! Histograms of levels, for the quality of the groups: 1 to 32 levels and up to 4,096 cells.

use super::levels::{levels, Spacing};
use super::random::{Beside, Random};
use super::sides::depth;
use crate::check::top;
use crate::histogram::{Histogram, MOST_CELLS, MOST_LEVELS};

/// How far a level above the three of a near tie lies from the one below it: farther than they lie
/// from each other.
const ABOVE: u32 = 16;

kinds! {
    Form {
        /// Levels by a spacing, counts by a kind.
        Free = "free",
        /// The same, then levels and counts mirrored about a middle: cuts have equal sums.
        Symmetric = "symmetric",
        /// Runs of levels near 4,095 whose counts add up to little more than powers of 2, where f64
        /// rounds s·s/w coarsest.
        Coarse = "coarse",
        /// Three levels near 4,095, the outer ones with counts nearly equal and many: two cuts have
        /// sums that differ by less than f64 may tell.
        NearTie = "near-tie",
    }
}

kinds! {
    Counts {
        Equal = "equal",
        Ones = "ones",
        Any = "any",
        /// The others are 1.
        OneLarge = "one-large",
        /// Up to five; the others are up to 3.
        FewLarge = "few-large",
        /// Any that add up to 4,096, the most.
        Full = "full",
        /// One of the others, mirrored.
        Mirrored = "mirrored",
    }
}

/// How a histogram was made.
#[derive(Clone, Copy, Debug)]
pub struct HistogramKinds {
    pub form: Form,
    pub spacing: Spacing,
    pub counts: Counts,
}

impl HistogramKinds {
    /// Five in eight are free.
    fn draw(random: &mut Random) -> Self {
        let form = match random.below(8) {
            0..=4 => Form::Free,
            5 => Form::Symmetric,
            6 => Form::Coarse,
            _ => Form::NearTie,
        };
        HistogramKinds {
            form,
            spacing: random.pick(Spacing::ALL),
            counts: random.pick(Counts::ALL),
        }
    }

    /// Spacing and counts have no part in the forms that have their own.
    pub fn names(&self) -> Vec<String> {
        let mut names = vec![format!("form={}", self.form.name())];
        if matches!(self.form, Form::Free | Form::Symmetric) {
            names.push(format!("spacing={}", self.spacing.name()));
            names.push(format!("counts={}", self.counts.name()));
        }
        names
    }
}

/// Each depth, and each number of levels from 1 to 32, is as likely as another; but bd is 12 in
/// `coarse` and `near-tie`, and `near-tie` has 3 to 11 levels.
pub fn histogram(seed: u64, index: u64) -> (Histogram, HistogramKinds) {
    let random = &mut Random::beside(seed, index, Beside::Histogram);
    let kinds = HistogramKinds::draw(random);
    let count = random.between(1, MOST_LEVELS);
    let made = match kinds.form {
        Form::Free => free(random, kinds, count),
        Form::Symmetric => symmetric(free(random, kinds, count)),
        Form::Coarse => coarse(random, count),
        Form::NearTie => near_tie(random),
    };
    (made, kinds)
}

fn free(random: &mut Random, kinds: HistogramKinds, count: usize) -> Histogram {
    let bd = depth(random);
    Histogram {
        bd,
        levels: levels(random, kinds.spacing, count, top(bd)),
        counts: counts(random, kinds.counts, count),
    }
}

fn counts(random: &mut Random, kind: Counts, count: usize) -> Vec<u32> {
    let even_share = MOST_CELLS / count;
    let counts = match kind {
        Counts::Equal => vec![random.between(1, even_share); count],
        Counts::Ones => vec![1; count],
        Counts::Any => (0..count).map(|_| random.between(1, even_share)).collect(),
        Counts::OneLarge => large(random, vec![1; count], 1),
        Counts::FewLarge => {
            let few = random.between(2, 5).min(count);
            let small = (0..count).map(|_| random.between(1, 3)).collect();
            large(random, small, few)
        }
        Counts::Full => parts(random, MOST_CELLS, count),
        Counts::Mirrored => {
            let others = &Counts::ALL[..Counts::ALL.len() - 1];
            let kind = random.pick(others);
            return mirrored(counts(random, kind, count));
        }
    };
    counts.into_iter().map(|count| count as u32).collect()
}

/// Replaces as many of the counts by large ones, which take all cells that are left half of the
/// time.
fn large(random: &mut Random, mut counts: Vec<usize>, few: usize) -> Vec<usize> {
    random.shuffle(&mut counts);
    let left = MOST_CELLS - counts[few..].iter().sum::<usize>();
    let cells = random.between(few, left);
    let cells = random.pick(&[cells, left]);
    let taken = parts(random, cells, few);
    counts[..few].copy_from_slice(&taken);
    random.shuffle(&mut counts);
    counts
}

/// Any counts, each at least 1, that add up to `total`.
fn parts(random: &mut Random, total: usize, count: usize) -> Vec<usize> {
    let mut ends = vec![];
    if count > 1 {
        let inner = levels(random, Spacing::Spread, count - 1, total as u32 - 2);
        ends.extend(inner.into_iter().map(|end| end as usize + 1));
    }
    ends.push(total);
    let starts = std::iter::once(0).chain(ends.iter().copied());
    ends.iter()
        .zip(starts)
        .map(|(end, start)| end - start)
        .collect()
}

/// By the half that has fewer cells, so that they do not become too many.
fn mirrored(mut counts: Vec<u32>) -> Vec<u32> {
    let (count, half) = (counts.len(), counts.len() / 2);
    if counts[..half].iter().sum::<u32>() > counts[count - half..].iter().sum() {
        counts.reverse();
    }
    for place in 0..half {
        counts[count - 1 - place] = counts[place];
    }
    counts
}

fn symmetric(made: Histogram) -> Histogram {
    let Histogram {
        bd,
        mut levels,
        counts,
    } = made;
    let (count, top) = (levels.len(), top(bd));
    let doubled_middle = |levels: &[u32]| levels[(count - 1) / 2] + levels[count / 2];
    if doubled_middle(&levels) - levels[0] > top {
        // The upper levels lie closer to the middle, so they are the ones to be mirrored.
        levels = levels.iter().rev().map(|level| top - level).collect();
    }
    let doubled = doubled_middle(&levels);
    for place in 0..count / 2 {
        levels[count - 1 - place] = doubled - levels[place];
    }
    Histogram {
        bd,
        levels,
        counts: mirrored(counts),
    }
}

/// Runs of neighbouring levels with gaps between them, as equally long as may be. Their counts add
/// up to 2,048, 1,024 and so on, each and up to a sixteenth more, as far as 4,096 go; the last
/// cells go to the first run half of the time.
fn coarse(random: &mut Random, count: usize) -> Histogram {
    let most = random.between(1, 8).min(count);
    let mut totals = vec![];
    let mut left = MOST_CELLS;
    for power in (0..most).map(|run| 2048 >> run) {
        let total = power + 1 + power * random.below(64) / 1024;
        if total <= left {
            totals.push(total);
            left -= total;
        }
    }
    totals[0] += random.pick(&[0, left]);
    random.shuffle(&mut totals);
    let mut made = Histogram {
        bd: 12,
        levels: vec![],
        counts: vec![],
    };
    let mut next = top(12);
    for (run, &total) in totals.iter().enumerate() {
        let length = count / totals.len() + usize::from(run < count % totals.len());
        let counts = parts(random, total, length);
        made.counts
            .extend(counts.into_iter().map(|count| count as u32));
        made.levels
            .extend((0..length as u32).map(|place| next - place));
        next -= (length + random.between(2, 8)) as u32;
    }
    made.levels.reverse();
    made.counts.reverse();
    made
}

/// The middle one of the three has one to three cells. Up to six levels with as few lie far below and
/// up to two above, so that with enough groups they have one each: the last group then begins behind
/// the three.
fn near_tie(random: &mut Random) -> Histogram {
    let (below, above) = (random.below(7), random.below(3));
    let mut levels = levels(random, Spacing::Spread, below, 2000);
    let step = random.between(1, 6) as u32;
    let highest = top(12) - ABOVE * above as u32 - random.below(8) as u32;
    levels.extend([highest - 2 * step, highest - step, highest]);
    levels.extend((1..=above as u32).map(|place| highest + ABOVE * place));
    let mut counts: Vec<u32> = (0..below + above)
        .map(|_| random.between(1, 3) as u32)
        .collect();
    let middle = random.pick(&[1, 1, 1, 2, 3]);
    let most = (MOST_CELLS as u32 - middle - counts.iter().sum::<u32>()) / 2;
    let fewer = random.between(64, most as usize) as u32;
    let many = random.pick(&[most, most, fewer]);
    let outer = [(); 2].map(|()| many - random.below(3) as u32);
    counts.splice(below..below, [outer[0], middle, outer[1]]);
    Histogram {
        bd: 12,
        levels,
        counts,
    }
}
