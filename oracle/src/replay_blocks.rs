//! The blocks that the crate `replay_blocks` is run on, and the lines that it must print.

use crate::answers::{search_answer, SearchAnswer};
use crate::generate::blocks::{block_of, BlockKinds};
use crate::generate::close::close_block;
use crate::generate::costs::{costs, CostKind};
use crate::generate::random::{Beside, Random};
use crate::generate::searches::{with_rooms, SearchKinds, SearchRequest};
use crate::generate::sides::SMALL;
use crate::lent::Costs;
use crate::original::Block;
use crate::replay::{hash, put_pair};

/// What the crate's buffers for samples and map hold, and its buffer for flags.
const PLACES: usize = 4240;
const FLAG_PLACES: usize = 80;

/// Blocks that are drawn with one table of costs: tables would fill most of the file otherwise.
const GROUP: u64 = 4;

pub struct ReplayedBlock {
    pub request: SearchRequest,
    pub kinds: SearchKinds,
    pub answer: SearchAnswer,
    /// The costs are those of the block before and do not follow.
    pub same_costs: bool,
}

/// The first blocks of a seed whose numbers fit the form.
pub fn replayed_blocks(seed: u64, count: usize) -> impl Iterator<Item = ReplayedBlock> {
    let mut costs_before = CostsBefore::default();
    (0..)
        .map(move |index| drawn(seed, index))
        .filter(|(request, _)| fits(request))
        .take(count)
        .map(move |(request, kinds)| {
            let same_costs = costs_before.are(&request.costs);
            let answer = search_answer(&request);
            ReplayedBlock {
                request,
                kinds,
                answer,
                same_costs,
            }
        })
}

/// The costs of the block before, by bits: NaN is then equal to itself, and -0.0 is not 0.0.
#[derive(Default)]
pub(crate) struct CostsBefore(Vec<u32>);

impl CostsBefore {
    /// Whether they are these, which are the ones before from then on.
    pub(crate) fn are(&mut self, costs: &[f32]) -> bool {
        let now: Vec<u32> = costs.iter().map(|cost| cost.to_bits()).collect();
        let same = now == self.0;
        self.0 = now;
        same
    }
}

/// Close blocks of this seed on which altered copies of the original gave another answer: without
/// the stop at an `lb` not below the best, with one above it only, with the shorter side or a least
/// row cost without the first line's copy in `lb`, with ties of `lb` to more colours.
const CLOSE_SEED: u64 = 99;
const STOPPED: [u64; 40] = [
    16, 17, 23, 40, 45, 105, 124, 126, 130, 144, 145, 209, 228, 229, 245, 264, 309, 314, 317, 393,
    396, 471, 475, 534, 624, 711, 1188, 15873, 17003, 17191, 56468, 87053, 114160, 155324, 162170,
    162276, 242593, 250176, 254772, 258051,
];

/// The last of each 16 blocks in four groups is a close one, in its turn.
fn drawn(seed: u64, index: u64) -> (SearchRequest, SearchKinds) {
    let (block, kinds) = if index % 16 == 15 {
        let stopped = STOPPED[(index / 16) as usize % STOPPED.len()];
        (close_block(&mut Random::new(CLOSE_SEED, stopped)), None)
    } else {
        let (block, kinds) = small_block(seed, index);
        (block, Some(kinds))
    };
    let random = &mut Random::beside(seed, index, Beside::Damage);
    let (request, damages) = with_rooms(random, block);
    let block = kinds;
    (request, SearchKinds { block, damages })
}

fn small_block(seed: u64, index: u64) -> (Block, BlockKinds) {
    let random = &mut Random::new(seed, index);
    let mut kinds = BlockKinds::draw(random);
    let (w, h) = sides(random, index);
    let mut block = block_of(random, kinds, w, h);
    (block.costs, kinds.costs) = group_costs(seed, index / GROUP);
    (block, kinds)
}

/// The costs that a group of blocks or strips shares.
pub(crate) fn group_costs(seed: u64, group: u64) -> (Box<Costs>, CostKind) {
    let random = &mut Random::beside(seed, group, Beside::Group);
    let kind = random.pick(CostKind::ALL);
    (costs(random, kind, 8), kind)
}

/// Great blocks, and those refused by 8, stand at fixed places, so that there are few of them.
fn sides(random: &mut Random, index: u64) -> (usize, usize) {
    match index {
        50 | 250 => (64, 64),
        _ if index % 25 == 10 => (32, 32),
        _ if index % 25 == 20 => random.pick(&[(15, 15), (2, 15)]),
        _ => random.pick(SMALL),
    }
}

fn fits(request: &SearchRequest) -> bool {
    request.w.max(request.h).max(request.bd as usize) < 256
        && request.flag_room <= FLAG_PLACES
        && request.map_room.max(request.samples.len()) <= PLACES
}

pub fn bytes(replayed: &ReplayedBlock) -> Vec<u8> {
    request_bytes(&replayed.request, replayed.same_costs)
}

/// The bytes of a block: a head of 15, then the costs unless those before are used again, then
/// the samples.
pub(crate) fn request_bytes(request: &SearchRequest, same_costs: bool) -> Vec<u8> {
    let mut bytes = vec![request.w as u8, request.h as u8, request.bd as u8];
    bytes.push(request.flag_room as u8);
    put_pair(&mut bytes, request.map_room as u16);
    put_pair(&mut bytes, request.samples.len() as u16);
    put_pair(&mut bytes, request.costs.len() as u16);
    put_float(&mut bytes, request.lambda);
    bytes.push(u8::from(same_costs));
    let costs = if same_costs { &[] } else { &request.costs[..] };
    for &value in costs.iter().chain(&request.samples) {
        put_float(&mut bytes, value);
    }
    bytes
}

pub(crate) fn put_float(bytes: &mut Vec<u8>, value: f32) {
    bytes.extend(value.to_bits().to_le_bytes());
}

/// The place is counted from 1; the two ones say that the places behind map and flags kept what
/// they held.
pub fn line(place: usize, replayed: &ReplayedBlock) -> String {
    let answer = &replayed.answer;
    let [n, colors @ .., orientation] = &answer.fields;
    let colors: Vec<String> = colors.iter().map(u32::to_string).collect();
    let hash = |cells: &[u8]| hash(cells.iter().map(|&cell| u32::from(cell)));
    format!(
        "{place} {} {n} {orientation} {} {} {} 1 {} 1",
        answer.number,
        colors.join(" "),
        answer
            .figures()
            .map(|figure| figure.to_bits().to_string())
            .join(" "),
        hash(&answer.map),
        hash(&answer.flags),
    )
}
