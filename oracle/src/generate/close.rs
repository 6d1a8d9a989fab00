//! Small blocks on which `lb` may lie above what a size really costs. Only there does the stop at
//! an `lb` not below the best take part in the answer, and with it the lines and the least row
//! cost that `lb` is made of. Other blocks hardly ever show it.

use super::random::Random;
use crate::lent::{Costs, COSTS};
use crate::original::Block;
use crate::places::{COLOR, ROW};

/// Neighbouring levels with samples drawn towards their middle, so that the error by samples is
/// less than the error by levels. Sums are exact, so that bounds and totals tie now and then.
pub fn close_block(random: &mut Random) -> Block {
    let costs = close_costs(random);
    let (w, h) = random.pick(&[(16, 1), (1, 16), (17, 2), (1, 64), (64, 1)]);
    let samples = close_samples(random, w * h);
    let lambda = random.between(1, 32) as f32 / random.pick(&[64.0, 64.0, 16.0]);
    Block {
        w,
        h,
        bd: 8,
        lambda,
        costs,
        samples,
    }
}

/// All 0; or all lines equally dear; or these, and a copy as first line, which no map sends, free:
/// it is the least row cost all the same.
fn close_costs(random: &mut Random) -> Box<Costs> {
    let line = random.pick(&[0.25, 0.5, 1.0, 4.0]);
    let kind = random.below(3);
    let mut costs = Box::new([0.0; COSTS]);
    if kind > 0 {
        costs[ROW..COLOR].fill(line);
    }
    if kind > 1 {
        costs[COLOR - 1] = 0.0;
    }
    costs
}

fn close_samples(random: &mut Random, cells: usize) -> Vec<f32> {
    let levels = random.pick(&[3, 3, 3, 5]);
    let first = random.between(0, 200);
    let length = random.pick(&[1, 1, 4, 16]);
    let mut number = 0;
    let mut sample = || {
        if random.one_in(length) {
            number = random.below(levels);
        }
        let towards = match number.cmp(&(levels / 2)) {
            std::cmp::Ordering::Less => random.pick(&[0.375, 0.375, 0.25]),
            std::cmp::Ordering::Equal => 0.0,
            std::cmp::Ordering::Greater => -random.pick(&[0.5f32, 0.5, 0.375]),
        };
        (first + number) as f32 + towards
    };
    (0..cells).map(|_| sample()).collect()
}
