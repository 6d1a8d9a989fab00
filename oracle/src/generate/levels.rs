//! Levels, and the unrounded samples that stand for them.

use super::random::Random;

kinds! {
    /// How the levels lie to one another.
    Spacing {
        Even = "even",
        EvenGap = "even-gap",
        Spread = "spread",
        Adjacent = "adjacent",
        Clusters = "clusters",
        Ends = "ends",
        High = "high",
    }
}

kinds! {
    /// How a sample lies to its level.
    Fraction {
        Whole = "whole",
        MinusZero = "minus-zero",
        Half = "half",
        UnderHalf = "under-half",
        Edges = "edges",
        Eighths = "eighths",
        Noise = "noise",
        Tenths = "tenths",
    }
}

/// How many levels a block is to have: 2, 32 and 33 by name, the others in ranges.
pub fn level_count(random: &mut Random) -> usize {
    match random.below(16) {
        0..=2 => 2,
        3..=7 => random.between(3, 8),
        8..=10 => random.between(9, 16),
        11..=12 => random.between(17, 31),
        13 => 32,
        14 => 33,
        _ => random.pick(&[1, 31, 34, 40]),
    }
}

/// `count` levels, ascending and distinct, from 0 to `top`.
pub fn levels(random: &mut Random, spacing: Spacing, count: usize, top: u32) -> Vec<u32> {
    let top = top as usize;
    let levels = match spacing {
        Spacing::Even => even(random, count, top, 1),
        // Every level of odd number is then midway between two others.
        Spacing::EvenGap => even(random, count, top, 2),
        Spacing::Spread => spread(random, count, top, &[]),
        Spacing::Adjacent => {
            let first = random.between(0, top + 1 - count);
            (first..first + count).collect()
        }
        Spacing::Clusters => clusters(random, count, top),
        Spacing::Ends => spread(random, count, top, &[0, top]),
        Spacing::High => (top + 1 - count..=top).collect(),
    };
    levels.into_iter().map(|level| level as u32).collect()
}

/// Equal steps, each a multiple of `unit`.
fn even(random: &mut Random, count: usize, top: usize, unit: usize) -> Vec<usize> {
    let most = (top / count / unit).clamp(1, 40);
    let step = unit * random.between(1, most);
    let first = random.between(0, top - step * (count - 1));
    (0..count).map(|number| first + step * number).collect()
}

fn spread(random: &mut Random, count: usize, top: usize, given: &[usize]) -> Vec<usize> {
    let mut levels: Vec<usize> = given.iter().copied().take(count).collect();
    while levels.len() < count {
        let level = random.between(0, top);
        if !levels.contains(&level) {
            levels.push(level);
        }
    }
    levels.sort_unstable();
    levels
}

/// A few centres with neighbouring levels around each.
fn clusters(random: &mut Random, count: usize, top: usize) -> Vec<usize> {
    let centres = spread(random, count.div_ceil(5), top, &[]);
    let mut levels = centres.clone();
    while levels.len() < count {
        let level = random.pick(&centres) + random.below(2 * count);
        if level <= top && !levels.contains(&level) {
            levels.push(level);
        } else if random.one_in(50) {
            // Centres too close to the top may have no free level left.
            return spread(random, count, top, &levels);
        }
    }
    levels.sort_unstable();
    levels
}

/// A sample that rounds to `level`, at most `top`.
pub fn sample(random: &mut Random, fraction: Fraction, level: u32, top: u32) -> f32 {
    let whole = level as f32;
    let value = match fraction {
        Fraction::Whole => whole,
        Fraction::MinusZero if level == 0 => return random.pick(&[-0.0, 0.0]),
        Fraction::MinusZero => whole,
        Fraction::Half => whole - 0.5,
        Fraction::UnderHalf => under_half(whole),
        Fraction::Edges => {
            let kind = random.pick(&[
                Fraction::Whole,
                Fraction::MinusZero,
                Fraction::Half,
                Fraction::UnderHalf,
            ]);
            return sample(random, kind, level, top);
        }
        Fraction::Eighths => whole + random.between(0, 7) as f32 / 8.0 - 0.5,
        Fraction::Noise => ((f64::from(level) + random.unit() - 0.5) as f32).min(under_half(whole)),
        Fraction::Tenths => whole + random.pick(&[-0.4, -0.25, 0.0, 0.1, 0.4]),
    };
    value.clamp(0.0, top as f32)
}

/// The greatest f32 that still rounds down to `whole`; 0.49999997 for 0.
fn under_half(whole: f32) -> f32 {
    (whole + 0.5).next_down()
}
