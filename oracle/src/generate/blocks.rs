//! Blocks for the search. All pass tests 1 to 7; some get 8, 9 or 10.

use super::costs::{costs, CostKind};
use super::lambdas::{lambda, Lambda};
use super::layouts::{layout, place_all, Layout};
use super::levels::{level_count, levels, sample, Fraction, Spacing};
use super::random::Random;
use super::sides::{depth, search_sides};
use crate::check::top;
use crate::original::Block;

/// How a block was made.
#[derive(Clone, Copy, Debug)]
pub struct BlockKinds {
    pub count: usize,
    pub spacing: Spacing,
    pub layout: Layout,
    pub fraction: Fraction,
    pub lambda: Lambda,
    pub costs: CostKind,
}

impl BlockKinds {
    pub fn draw(random: &mut Random) -> Self {
        BlockKinds {
            count: level_count(random),
            spacing: random.pick(Spacing::ALL),
            layout: random.pick(Layout::ALL),
            fraction: random.pick(Fraction::ALL),
            lambda: draw_lambda(random),
            costs: random.pick(CostKind::ALL),
        }
    }

    pub fn names(&self) -> String {
        format!(
            "levels={} spacing={} layout={} fraction={} lambda={} costs={}",
            self.count,
            self.spacing.name(),
            self.layout.name(),
            self.fraction.name(),
            self.lambda.name(),
            self.costs.name(),
        )
    }
}

/// Half of the draws from the middle of the range, where distance and rate both count.
fn draw_lambda(random: &mut Random) -> Lambda {
    if random.one_in(2) {
        random.pick(&[Lambda::Dyadic, Lambda::Ordinary, Lambda::Small])
    } else {
        random.pick(Lambda::ALL)
    }
}

pub fn block(seed: u64, index: u64) -> (Block, BlockKinds) {
    let random = &mut Random::new(seed, index);
    let kinds = BlockKinds::draw(random);
    let (w, h) = search_sides(random);
    (block_of(random, kinds, w, h), kinds)
}

/// A block of given kinds and sides.
pub fn block_of(random: &mut Random, kinds: BlockKinds, w: usize, h: usize) -> Block {
    let bd = depth(random);
    let samples = samples(random, kinds, w, h, top(bd));
    let lambda = lambda(random, kinds.lambda);
    let costs = costs(random, kinds.costs, bd);
    Block {
        w,
        h,
        bd,
        lambda,
        costs,
        samples,
    }
}

/// The samples of a block of given kinds and sides, with levels up to `top`.
pub fn samples(random: &mut Random, kinds: BlockKinds, w: usize, h: usize, top: u32) -> Vec<f32> {
    let mut levels = levels(random, kinds.spacing, kinds.count, top);
    if matches!(
        kinds.fraction,
        Fraction::MinusZero | Fraction::UnderHalf | Fraction::Edges
    ) {
        // Negative zero and 0.49999997 are samples of level 0.
        levels[0] = 0;
    }
    let mut numbers = layout(random, kinds.layout, w, h, kinds.count);
    if !random.one_in(4) {
        place_all(random, &mut numbers, kinds.count);
    }
    numbers
        .iter()
        .map(|&number| sample(random, kinds.fraction, levels[number], top))
        .collect()
}
