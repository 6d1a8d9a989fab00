//! Small blocks with samples at the edge of sureness. A search may settle a cell without its
//! context where d + lambda × cap < d' for the nearest colour's squared distance d and each other
//! colour's d', with cap the greatest of the colour costs of n. Here lambda × cap is what a sample's
//! two distances differ by, or little more or less, and the costs are such that a search that is
//! sure too early takes another index.

use super::lambdas::{lambda, Lambda};
use super::random::{Beside, Random};
use super::searches::{with_rooms, SearchDamage, SearchRequest};
use crate::check::top;
use crate::lent::{Costs, COSTS};
use crate::original::Block;
use crate::places::{COLOR, ROW, SIZE};

kinds! {
    /// How lambda × cap lies to the difference of a sample's distances.
    Edge {
        /// The same, as far as a float goes.
        At = "at",
        /// The next floats, or closer than an f32 tells apart.
        Step = "step",
        /// Within an eighth.
        Near = "near",
        /// Lambda is any.
        Any = "any",
    }
}

kinds! {
    /// The colour costs of n: cap is in some places.
    CapPlaces {
        /// All 0 but for one place.
        One = "one",
        /// In half of the places, 0 in the others.
        Half = "half",
        /// At the ranks from one on.
        Ranks = "ranks",
        /// In one context; the others have a hundredth of it at most.
        Context = "context",
        /// Everywhere.
        All = "all",
        /// Everywhere a part of it.
        Parts = "parts",
    }
}

kinds! {
    /// The colour costs of the other counts of colours.
    Others {
        Zero = "zero",
        Dear = "dear",
        Less = "less",
        More = "more",
    }
}

#[derive(Clone, Copy, Debug)]
pub struct SureKinds {
    pub n: usize,
    pub edge: Edge,
    pub places: CapPlaces,
    pub others: Others,
}

/// A block with its rooms, damaged or not.
pub fn sure_request(seed: u64, index: u64) -> (SearchRequest, SureKinds, Vec<SearchDamage>) {
    let (block, kinds) = sure_block(seed, index);
    let random = &mut Random::beside(seed, index, Beside::Damage);
    let (request, damages) = with_rooms(random, block);
    (request, kinds, damages)
}

pub fn sure_block(seed: u64, index: u64) -> (Block, SureKinds) {
    let random = &mut Random::beside(seed, index, Beside::Sure);
    let kinds = SureKinds {
        n: random.between(2, 8),
        edge: random.pick(Edge::ALL),
        places: random.pick(CapPlaces::ALL),
        others: random.pick(Others::ALL),
    };
    let bd = random.pick(&[8, 8, 10, 12]);
    let colors = colors(random, kinds.n, top(bd));
    let edge = edge_sample(random, &colors);
    let cap = cap(random);
    let (w, h) = random.pick(&[
        (16, 1),
        (16, 2),
        (17, 3),
        (3, 17),
        (20, 4),
        (4, 24),
        (32, 3),
    ]);
    let block = Block {
        w,
        h,
        bd,
        lambda: edge_lambda(random, kinds.edge, edge.difference, cap),
        costs: costs(random, &kinds, cap),
        samples: samples(random, &colors, &edge, w * h),
    };
    (block, kinds)
}

/// So many ascending levels, mostly close to one another.
fn colors(random: &mut Random, n: usize, top: u32) -> Vec<u32> {
    let gap = random.pick(&[1, 1, 2, 2, 4, 16, top as usize / 9]);
    let same = random.one_in(2);
    let mut colors = vec![random.between(0, top as usize - 8 * gap) as u32];
    while colors.len() < n {
        let step = if same { gap } else { random.between(1, gap) };
        colors.push(colors[colors.len() - 1] + step as u32);
    }
    colors
}

/// A sample between two colours, and by how much their squared distances to it differ.
struct EdgeSample {
    value: f32,
    difference: f32,
}

/// Mostly one that rounds to one of the two; half way between neighbouring levels among them. Now
/// and then anywhere between them, which may be a level of its own.
fn edge_sample(random: &mut Random, colors: &[u32]) -> EdgeSample {
    let lower = random.below(colors.len() - 1);
    let (low, high) = (colors[lower] as f32, colors[lower + 1] as f32);
    let part = random.pick(&[
        0.5,
        0.5,
        0.375,
        0.25,
        0.4375,
        0.125,
        0.498_046_88,
        0.0,
        0.3,
        0.1,
    ]);
    let part = if random.one_in(8) {
        part * (high - low)
    } else {
        part
    };
    let value = if random.one_in(2) {
        low + part
    } else {
        high - part
    };
    let squares = [low, high].map(|color| (value - color) * (value - color));
    EdgeSample {
        value,
        difference: (squares[0] - squares[1]).abs(),
    }
}

fn cap(random: &mut Random) -> f32 {
    let any = (random.unit() * 32.0) as f32;
    let tiny = f32::from_bits(random.between(1, 0x007f_ffff) as u32);
    let small = f32::from_bits((random.between(100, 126) as u32) << 23);
    random.pick(&[
        1.0, 1.0, 32.0, 0.5, 8.0, 0.1, any, any, small, small, tiny, 0.0, -0.0,
    ])
}

/// Within 0 to 2^20, and any lambda where the edge asks for none.
fn edge_lambda(random: &mut Random, edge: Edge, difference: f32, cap: f32) -> f32 {
    let kind = random.pick(Lambda::ALL);
    let any = lambda(random, kind);
    let at = difference / cap;
    let wanted = match edge {
        Edge::At => at,
        Edge::Step => random.pick(&[at.next_up(), at.next_down(), at.next_up().next_up()]),
        Edge::Near => at * (0.875 + 0.25 * random.unit() as f32),
        Edge::Any => any,
    };
    match (0.0..=1_048_576.0).contains(&wanted) {
        true => wanted,
        false => any,
    }
}

/// Cells of their own and n colours are cheap, so that the cells' indices show in the answer.
fn costs(random: &mut Random, kinds: &SureKinds, cap: f32) -> Box<Costs> {
    let mut costs = Box::new([0.0; COSTS]);
    let dear = random.pick(&[32.0, 32.0, 4.0, cap]);
    for size in 2..=8 {
        costs[SIZE + size - 2] = if size == kinds.n { 0.0 } else { dear };
    }
    for (place, cost) in costs[ROW..COLOR].iter_mut().enumerate() {
        *cost = if place % 3 == 0 { 0.0 } else { dear };
    }
    for (size, of_size) in costs[COLOR..].chunks_mut(40).enumerate() {
        if size + 2 == kinds.n {
            fill_capped(random, kinds, cap, of_size);
        } else {
            fill_other(random, kinds.others, cap, of_size);
        }
    }
    costs
}

fn fill_capped(random: &mut Random, kinds: &SureKinds, cap: f32, costs: &mut [f32]) {
    // Those of ranks that n colours do not have are filled like the others, though nobody reads them.
    let ranks = if random.one_in(2) { kinds.n } else { 8 };
    let (context, rank) = (random.below(5), random.below(kinds.n));
    let hundredth = cap * 0.01;
    for (place, cost) in costs.iter_mut().enumerate() {
        let (here, at) = (place / 8, place % 8);
        let is_cap = match kinds.places {
            CapPlaces::One => (here, at) == (context, rank),
            CapPlaces::Half => random.one_in(2),
            CapPlaces::Ranks => at >= rank,
            CapPlaces::Context => here == context && random.one_in(2),
            CapPlaces::All => true,
            CapPlaces::Parts => random.one_in(16),
        };
        *cost = match (is_cap && at < ranks, kinds.places) {
            (true, _) => cap,
            (false, CapPlaces::Context) => random.pick(&[0.0, hundredth]),
            (false, CapPlaces::Parts) => cap * random.unit() as f32,
            _ => 0.0,
        };
    }
}

fn fill_other(random: &mut Random, others: Others, cap: f32, costs: &mut [f32]) {
    let cost = match others {
        Others::Zero => 0.0,
        Others::Dear => 32.0,
        Others::Less => cap * 0.125,
        Others::More => (cap * 8.0).min(32.0),
    };
    costs.fill_with(|| random.pick(&[cost, cost, 0.0]));
}

/// Whole colours, and the edge sample in one cell of `rare`; close to it now and then.
fn samples(random: &mut Random, colors: &[u32], edge: &EdgeSample, cells: usize) -> Vec<f32> {
    let rare = random.pick(&[2, 3, 8]);
    let run = random.pick(&[1, 1, 3, 6]);
    let mut color = 0;
    let mut sample = || {
        if random.one_in(rare) {
            let value = edge.value;
            return random.pick(&[value, value, value, value.next_up(), value.next_down()]);
        }
        if random.one_in(run) {
            color = random.below(colors.len());
        }
        colors[color] as f32
    };
    let mut samples: Vec<f32> = (0..cells).map(|_| sample().max(0.0)).collect();
    // Each colour stands somewhere, so that it is a level.
    for &color in colors {
        samples[random.below(cells)] = color as f32;
    }
    samples
}
