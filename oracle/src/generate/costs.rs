//! Lent tables of costs, each entry from 0 to 32. Places that no call asks for are filled like
//! the others: nobody may read them.

use super::random::Random;
use crate::lent::{Costs, COSTS};
use crate::places::{self, MODE, ROW, SIZE};

kinds! {
    CostKind {
        Zero = "zero",
        MinusZero = "minus-zero",
        Equal = "equal",
        Extreme = "extreme",
        HeadBelowZero = "head-below-zero",
        Tied = "tied",
        OneStep = "one-step",
        Subnormal = "subnormal",
        Uniform = "uniform",
        Logarithms = "logarithms",
        Balanced = "balanced",
        CheapCells = "cheap-cells",
        CheapConstant = "cheap-constant",
        CheapCopy = "cheap-copy",
    }
}

pub fn costs(random: &mut Random, kind: CostKind, bd: u32) -> Box<Costs> {
    match kind {
        CostKind::Zero => filled(|_| 0.0),
        CostKind::MinusZero => filled(|_| -0.0),
        CostKind::Equal => {
            let any = uniform(random);
            let cost = random.pick(&[1.0, 32.0, 0.1, any]);
            filled(|_| cost)
        }
        CostKind::Extreme => filled(|_| random.pick(&[0.0, -0.0, 32.0])),
        CostKind::HeadBelowZero => head_below_zero(random),
        CostKind::Tied => filled(|_| random.pick(&[0.0, 0.5, 1.0, 2.0])),
        CostKind::OneStep => {
            let cost = uniform(random);
            filled(|_| random.pick(&[cost, cost.next_down().max(0.0)]))
        }
        CostKind::Subnormal => filled(|_| f32::from_bits(random.between(0, 0x007f_ffff) as u32)),
        CostKind::Uniform => filled(|_| uniform(random)),
        CostKind::Logarithms => logarithms(),
        CostKind::Balanced => balanced(random, bd),
        CostKind::CheapCells => cheap_flag(random, 0),
        CostKind::CheapConstant => cheap_flag(random, 1),
        CostKind::CheapCopy => cheap_flag(random, 2),
    }
}

fn filled(mut cost: impl FnMut(usize) -> f32) -> Box<Costs> {
    let mut costs = Box::new([0.0; COSTS]);
    costs
        .iter_mut()
        .enumerate()
        .for_each(|(place, entry)| *entry = cost(place));
    costs
}

fn uniform(random: &mut Random) -> f32 {
    (random.unit() * 32.0) as f32
}

/// mode[1] - mode[0] is -32 or little more, and size costs too small to make up for it.
fn head_below_zero(random: &mut Random) -> Box<Costs> {
    let mut costs = filled(|_| random.pick(&[0.0, 0.25, 1.0]));
    costs[MODE] = random.pick(&[32.0, 31.5, 32f32.next_down()]);
    costs[MODE + 1] = 0.0;
    costs
}

/// As the original prices its own tables, but for its quick logarithm. The logarithm is taken in
/// f64 and then rounded: in f32 its last bit was not the same in every build.
pub fn logarithms() -> Box<Costs> {
    filled(|place| {
        let (icdf, symbol, symbols) = places::ask_at(place);
        if symbol >= symbols {
            return 0.0;
        }
        let above = if symbol == 0 { 32768 } else { icdf[symbol - 1] };
        let below = if symbol + 1 < symbols {
            icdf[symbol]
        } else {
            0
        };
        let share = f64::from((above - below).max(1)) / 32768.0;
        -share.log2().min(0.0) as f32
    })
}

/// Size costs undo the least literal widths (at 8 bits), so that heads tie and, under a great
/// lambda, the sizes' bounds with them.
fn balanced(random: &mut Random, bd: u32) -> Box<Costs> {
    let mut costs = filled(|_| random.pick(&[0.0, 1.0]));
    let step = (bd - 3).min(5);
    for size in 0..7 {
        costs[SIZE + size] = ((6 - size as u32) * step) as f32;
    }
    costs
}

/// One flag nearly free, the others dear.
fn cheap_flag(random: &mut Random, flag: usize) -> Box<Costs> {
    let mut costs = logarithms();
    for place in 0..12 {
        let dear = random.between(8, 32) as f32;
        costs[ROW + place] = if place % 3 == flag { 0.125 } else { dear };
    }
    costs
}
