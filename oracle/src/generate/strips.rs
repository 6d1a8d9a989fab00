//! Strips of blocks as our `search_strip` is asked. The blocks of one share depth, lambda and
//! costs; most are small, so that many strips are searched in little time.

use super::blocks::{samples, BlockKinds};
use super::close::close_block;
use super::costs::costs;
use super::damages::{self, fewer, put_anywhere};
use super::lambdas::lambda;
use super::random::{Beside, Random};
use super::searches::{damage_count, outside};
use super::sides::{depth, search_sides, side, SMALL};
use crate::check::top;

/// Sides are width and height of each block in turn, if nothing is wrong with them.
#[derive(Clone, Debug)]
pub struct StripRequest {
    pub sides: Vec<usize>,
    pub samples: Vec<f32>,
    pub bd: u32,
    pub lambda: f32,
    pub costs: Vec<f32>,
    pub map_room: usize,
    pub flag_room: usize,
}

impl StripRequest {
    /// Width and height of each block; half a pair at the end is left out.
    pub fn pairs(&self) -> impl Iterator<Item = (usize, usize)> + '_ {
        self.sides.chunks_exact(2).map(|pair| (pair[0], pair[1]))
    }
}

kinds! {
    /// How many blocks there are.
    Length {
        One = "1",
        Few = "2 to 8",
        Some = "9 to 40",
        Many = "41 to 63",
        All = "64",
    }
}

kinds! {
    /// Which sides the blocks have.
    Sizes {
        Small = "small",
        /// Half of them are refused by 8.
        Tiny = "tiny",
        /// A line of cells, so that the longer side is far from the other.
        Thin = "thin",
        /// All blocks have the same sides.
        Equal = "equal",
        /// Small ones and one of any sides.
        OneGreat = "one-great",
        Close = "close",
        /// All blocks are 64 by 64.
        Greatest = "greatest",
    }
}

kinds! {
    /// What is wrong in a damaged strip. Two of one kind may undo each other.
    StripDamage {
        NoSides = "no-sides",
        HalfPair = "half-pair",
        TooMany = "too-many",
        Side = "side",
        SideRaised = "side-raised",
        SampleCount = "sample-count",
        MapRoom = "map-room",
        FlagRoom = "flag-room",
        FlagsByOneSide = "flags-by-one-side",
        Depth = "depth",
        Lambda = "lambda",
        CostCount = "cost-count",
        Cost = "cost",
        Samples = "samples",
    }
}

pub struct StripKinds {
    pub length: Length,
    pub sizes: Sizes,
    /// Lambda and costs are of these kinds; `None` where they are those of a close block.
    pub shared: Option<BlockKinds>,
    pub damages: Vec<StripDamage>,
}

/// Any strip. One in ten is damaged, and one in eight has samples out of range.
pub fn strip(seed: u64, index: u64) -> (StripRequest, StripKinds) {
    let random = &mut Random::beside(seed, index, Beside::Strip);
    let (length, sizes) = if random.one_in(4096) {
        (Length::All, Sizes::Greatest)
    } else {
        (draw_length(random), draw_sizes(random))
    };
    let mut damages = damages::draw(random, StripDamage::ALL);
    if random.one_in(8) {
        damages.push(StripDamage::Samples);
    }
    damaged(random, length, sizes, damages)
}

/// 64 small blocks.
pub fn full_strip(seed: u64, index: u64) -> (StripRequest, StripKinds) {
    let random = &mut Random::beside(seed, index, Beside::Strip);
    let sizes = random.pick(&[Sizes::Small, Sizes::Tiny, Sizes::Thin, Sizes::Equal]);
    let mut damages = vec![];
    if random.one_in(4) {
        damages.push(StripDamage::Samples);
    }
    damaged(random, Length::All, sizes, damages)
}

/// A strip with one damage or, half of the time, two, so that the order of the tests shows.
pub fn damaged_strip(seed: u64, index: u64) -> (StripRequest, StripKinds) {
    let random = &mut Random::beside(seed, index, Beside::Strip);
    let (length, sizes) = (draw_length(random), draw_sizes(random));
    let count = random.between(1, 2);
    let damages = (0..count).map(|_| random.pick(StripDamage::ALL)).collect();
    damaged(random, length, sizes, damages)
}

/// Short strips are frequent.
fn draw_length(random: &mut Random) -> Length {
    match random.below(16) {
        0..=3 => Length::One,
        4..=11 => Length::Few,
        12..=13 => Length::Some,
        14 => Length::Many,
        _ => Length::All,
    }
}

fn draw_sizes(random: &mut Random) -> Sizes {
    random.pick(&[
        Sizes::Small,
        Sizes::Tiny,
        Sizes::Thin,
        Sizes::Equal,
        Sizes::OneGreat,
        Sizes::Close,
    ])
}

fn damaged(
    random: &mut Random,
    length: Length,
    sizes: Sizes,
    damages: Vec<StripDamage>,
) -> (StripRequest, StripKinds) {
    let (mut request, mut kinds) = sound(random, length, sizes);
    for &kind in &damages {
        damage(random, kind, &mut request);
    }
    kinds.damages = damages;
    (request, kinds)
}

/// A strip that the whole call's tests let through.
pub fn sound(random: &mut Random, length: Length, sizes: Sizes) -> (StripRequest, StripKinds) {
    let count = blocks(random, length);
    let (mut request, shared) = if sizes == Sizes::Close {
        (close_strip(random, count), None)
    } else {
        let kinds = BlockKinds::draw(random);
        (mixed_strip(random, sizes, kinds, count), Some(kinds))
    };
    request.map_room = cells(&request) + spare(random);
    request.flag_room = longer(&request) + spare(random);
    let damages = vec![];
    let kinds = StripKinds {
        length,
        sizes,
        shared,
        damages,
    };
    (request, kinds)
}

fn blocks(random: &mut Random, length: Length) -> usize {
    match length {
        Length::One => 1,
        Length::Few => random.between(2, 8),
        Length::Some => random.between(9, 40),
        Length::Many => random.between(41, 63),
        Length::All => 64,
    }
}

/// Now and then there is room for a block more.
fn spare(random: &mut Random) -> usize {
    if random.one_in(8) {
        random.between(6, 300)
    } else {
        damages::spare(random)
    }
}

/// Each block is of kinds of its own but for lambda and costs.
fn mixed_strip(random: &mut Random, sizes: Sizes, kinds: BlockKinds, count: usize) -> StripRequest {
    let bd = depth(random);
    let mut request = StripRequest {
        sides: vec![],
        samples: vec![],
        bd,
        lambda: lambda(random, kinds.lambda),
        costs: costs(random, kinds.costs, bd).to_vec(),
        map_room: 0,
        flag_room: 0,
    };
    for (w, h) in all_sides(random, sizes, count) {
        let kinds = BlockKinds::draw(random);
        request.sides.extend([w, h]);
        request
            .samples
            .extend(samples(random, kinds, w, h, top(bd)));
    }
    request
}

/// Close blocks, with depth, lambda and costs of the first.
fn close_strip(random: &mut Random, count: usize) -> StripRequest {
    let first = close_block(random);
    let mut request = StripRequest {
        sides: vec![first.w, first.h],
        samples: first.samples,
        bd: first.bd,
        lambda: first.lambda,
        costs: first.costs.to_vec(),
        map_room: 0,
        flag_room: 0,
    };
    for _ in 1..count {
        let block = close_block(random);
        request.sides.extend([block.w, block.h]);
        request.samples.extend(block.samples);
    }
    request
}

const TINY: &[(usize, usize)] = &[(1, 1), (1, 16), (16, 1), (2, 3), (15, 15), (16, 2)];

fn all_sides(random: &mut Random, sizes: Sizes, count: usize) -> Vec<(usize, usize)> {
    let same = random.pick(SMALL);
    let mut all: Vec<_> = (0..count)
        .map(|_| match sizes {
            Sizes::Tiny => random.pick(TINY),
            Sizes::Thin => thin(random),
            Sizes::Equal => same,
            Sizes::Greatest => (64, 64),
            Sizes::Small | Sizes::OneGreat | Sizes::Close => random.pick(SMALL),
        })
        .collect();
    if sizes == Sizes::OneGreat {
        let any = search_sides(random);
        let great = random.pick(&[any, any, (64, 64)]);
        put_anywhere(random, &mut all, great);
    }
    all
}

fn thin(random: &mut Random) -> (usize, usize) {
    let long = side(random);
    random.pick(&[(1, long), (long, 1), (2, long)])
}

pub fn damage(random: &mut Random, kind: StripDamage, request: &mut StripRequest) {
    match kind {
        StripDamage::NoSides => damage_sides(random, request, |_, sides| sides.clear()),
        StripDamage::HalfPair => damage_sides(random, request, half_pair),
        StripDamage::TooMany => damage_sides(random, request, too_many),
        StripDamage::Side => damage_sides(random, request, |r, sides| out_of_range(r, sides)),
        StripDamage::SideRaised => damage_sides(random, request, |r, sides| raise(r, sides)),
        StripDamage::SampleCount => damage_count(random, &mut request.samples),
        StripDamage::MapRoom => request.map_room = fewer(random, cells(request).min(FOLLOWED)),
        StripDamage::FlagRoom => request.flag_room = fewer(random, longer(request).min(FOLLOWED)),
        StripDamage::FlagsByOneSide => request.flag_room = by_one_side(random, request),
        StripDamage::Depth => request.bd = damages::depth(random),
        StripDamage::Lambda => request.lambda = outside(random, 1 << 20),
        StripDamage::CostCount => damage_count(random, &mut request.costs),
        StripDamage::Cost => {
            let cost = outside(random, 32);
            put_anywhere(random, &mut request.costs, cost);
        }
        StripDamage::Samples => damage_samples(random, request),
    }
}

/// More samples or places than these do not follow the sides.
const FOLLOWED: usize = 300_000;

/// Half of the time samples and rooms follow the sides, so that nothing but these is wrong.
fn damage_sides(
    random: &mut Random,
    request: &mut StripRequest,
    change: impl FnOnce(&mut Random, &mut Vec<usize>),
) {
    change(random, &mut request.sides);
    let (cells, lines) = (cells(request), longer(request));
    if random.one_in(2) && cells.max(lines) <= FOLLOWED {
        request.samples.resize(cells, 0.0);
        (request.map_room, request.flag_room) = (cells, lines);
    }
}

fn half_pair(random: &mut Random, sides: &mut Vec<usize>) {
    if random.one_in(2) {
        sides.pop();
    } else {
        sides.push(random.pick(&[1, 16, 64, 0, 65]));
    }
}

/// 64 pairs and a half, 65 pairs, or so many that a cut count would be the sound one again; behind
/// the strip's own sides only ones.
fn too_many(random: &mut Random, sides: &mut Vec<usize>) {
    let own = sides.len();
    let total = match random.below(16) {
        0..=3 => 129,
        4..=7 => 130,
        8..=11 => random.between(131, 300),
        12 => 128 + own,
        13 => 256 + own,
        14 => 512 + own,
        _ => 65_536 + own,
    };
    sides.resize(total.max(129), 1);
}

/// Anywhere among the blocks; half of the time a second one too.
fn out_of_range(random: &mut Random, sides: &mut [usize]) {
    for _ in 0..random.between(1, 2) {
        let wrong = random.pick(&[0, 65, 66, 128, 255, 1 << 32, 1 << 63, usize::MAX]);
        put_anywhere(random, sides, wrong);
    }
}

/// So that a cut side, or a product that overflows, would be the sound one again.
fn raise(random: &mut Random, sides: &mut [usize]) {
    let more = random.pick(&[64, 128, 256, 1 << 16, 1 << 32, 1 << 58, 1 << 62, 1 << 63]);
    if !sides.is_empty() {
        let at = random.below(sides.len());
        sides[at] = sides[at].wrapping_add(more);
    }
}

/// Enough for the widths alone, or for the heights, or for the shorter sides.
fn by_one_side(random: &mut Random, request: &StripRequest) -> usize {
    let side = random.pick(&[|w, _| w, |_, h| h, usize::min]);
    let short = longer(request).saturating_sub(1);
    sum(request, side).min(short).min(FOLLOWED)
}

/// One to three samples, each in any block.
fn damage_samples(random: &mut Random, request: &mut StripRequest) {
    for _ in 0..random.between(1, 3) {
        let sample = outside(random, top(request.bd.clamp(8, 12)));
        put_anywhere(random, &mut request.samples, sample);
    }
}

fn cells(request: &StripRequest) -> usize {
    sum(request, usize::saturating_mul)
}

fn longer(request: &StripRequest) -> usize {
    sum(request, usize::max)
}

/// A number for each block, added up as far as they go.
fn sum(request: &StripRequest, of: fn(usize, usize) -> usize) -> usize {
    let each = request.pairs().map(|(w, h)| of(w, h));
    each.fold(0, usize::saturating_add)
}
