//! Blocks with rooms as our `search` is asked; about one in ten is damaged.

use super::blocks::{block, BlockKinds};
use super::close::close_block;
use super::damages::{self, lacking, put_anywhere, stretch, MOST};
use super::random::{Beside, Random};
use crate::check::{top, Asked};
use crate::original::Block;

/// Unlike a block it may hold any number of costs, and it has rooms.
#[derive(Clone, Debug)]
pub struct SearchRequest {
    pub w: usize,
    pub h: usize,
    pub bd: u32,
    pub lambda: f32,
    pub costs: Vec<f32>,
    pub samples: Vec<f32>,
    pub map_room: usize,
    pub flag_room: usize,
}

impl SearchRequest {
    pub fn asked(&self) -> Asked<'_> {
        Asked {
            w: self.w,
            h: self.h,
            bd: self.bd,
            lambda: self.lambda,
            costs: &self.costs,
            samples: &self.samples,
            map_room: self.map_room,
            flag_room: self.flag_room,
        }
    }
}

/// A block with exact rooms.
impl From<Block> for SearchRequest {
    fn from(block: Block) -> Self {
        SearchRequest {
            w: block.w,
            h: block.h,
            bd: block.bd,
            lambda: block.lambda,
            costs: block.costs.to_vec(),
            map_room: block.samples.len(),
            flag_room: block.w.max(block.h),
            samples: block.samples,
        }
    }
}

kinds! {
    /// What is wrong in a damaged request. Two of one kind may undo each other.
    SearchDamage {
        Side = "side",
        Depth = "depth",
        SampleCount = "sample-count",
        Lambda = "lambda",
        CostCount = "cost-count",
        Cost = "cost",
        Sample = "sample",
        MapRoom = "map-room",
        FlagRoom = "flag-room",
    }
}

pub struct SearchKinds {
    /// `None` for a close block.
    pub block: Option<BlockKinds>,
    pub damages: Vec<SearchDamage>,
}

/// One request in eight has a close block.
pub fn search_request(seed: u64, index: u64) -> (SearchRequest, SearchKinds) {
    let random = &mut Random::beside(seed, index, Beside::Damage);
    let (block, kinds) = if random.one_in(8) {
        (close_block(random), None)
    } else {
        let (block, kinds) = block(seed, index);
        (block, Some(kinds))
    };
    let (request, damages) = with_rooms(random, block);
    let block = kinds;
    (request, SearchKinds { block, damages })
}

/// A block with its rooms, damaged or not.
pub fn with_rooms(random: &mut Random, block: Block) -> (SearchRequest, Vec<SearchDamage>) {
    let mut request = SearchRequest::from(block);
    request.map_room += damages::spare(random);
    request.flag_room += damages::spare(random);
    let damages = damages::draw(random, SearchDamage::ALL);
    for &kind in &damages {
        damage(random, kind, &mut request);
    }
    (request, damages)
}

fn damage(random: &mut Random, kind: SearchDamage, request: &mut SearchRequest) {
    match kind {
        SearchDamage::Side => damage_side(random, request),
        SearchDamage::Depth => request.bd = damages::depth(random),
        SearchDamage::SampleCount => damage_count(random, &mut request.samples),
        SearchDamage::Lambda => request.lambda = outside(random, 1 << 20),
        SearchDamage::CostCount => damage_count(random, &mut request.costs),
        SearchDamage::Cost => {
            let cost = outside(random, 32);
            put_anywhere(random, &mut request.costs, cost);
        }
        SearchDamage::Sample => {
            let sample = outside(random, top(request.bd.clamp(8, 12)));
            put_anywhere(random, &mut request.samples, sample);
        }
        SearchDamage::MapRoom => request.map_room = lacking(random, cells(request)),
        SearchDamage::FlagRoom => request.flag_room = lacking(random, request.w.max(request.h)),
    }
}

/// One place more or fewer; now and then none at all, or so many more that a count cut to a byte
/// would be the sound one again.
pub(super) fn damage_count(random: &mut Random, values: &mut Vec<f32>) {
    match random.below(8) {
        0 => values.clear(),
        1 => values.resize(values.len() + 256, 0.0),
        _ => stretch(random, values),
    }
}

/// Half of the time the samples follow the side, so that nothing but the side is wrong.
fn damage_side(random: &mut Random, request: &mut SearchRequest) {
    damages::damage_side(random, &mut request.w, &mut request.h);
    if random.one_in(2) && cells(request) <= MOST {
        request.samples.resize(cells(request), 0.0);
    }
}

fn cells(request: &SearchRequest) -> usize {
    request.w.saturating_mul(request.h)
}

/// A value below 0, above `end` or none at all. Each NaN is a quiet one: a signalling one may
/// change on its way.
pub(super) fn outside(random: &mut Random, end: u32) -> f32 {
    let end = end as f32;
    match random.below(4) {
        0 => random.pick(&[-f32::from_bits(1), -1.0, -f32::MAX]),
        1 => random.pick(&[end.next_up(), end + 0.25, 2.0 * end, f32::MAX]),
        2 => random.pick(&[f32::INFINITY, f32::NEG_INFINITY]),
        _ => f32::from_bits(random.pick(&[0x7fc0_0000, 0xffc0_0000, 0x7fff_ffff, 0x7fc0_1234])),
    }
}
