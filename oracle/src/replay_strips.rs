//! The strips that the crate `replay_strips` is run on, and the lines that it must print.

use crate::answers::SearchAnswer;
use crate::generate::random::{Beside, Random};
use crate::generate::strips::{
    damage, sound, Length, Sizes, StripDamage, StripKinds, StripRequest,
};
use crate::replay::{hash, put_pair};
use crate::replay_blocks::{group_costs, put_float, CostsBefore};
use crate::strips::{parts, strip_answer, Part, StripAnswer, FIELDS};

/// What the crate's buffers hold.
const SIDES: usize = 300;
const COSTS: usize = 560;
const CELLS: usize = 8192;
const FLAGS: usize = 2048;
/// Every place of map and flags before a call.
const FILL: u8 = 238;

/// Strips that are drawn with one table of costs.
const GROUP: u64 = 8;

pub struct ReplayedStrip {
    pub request: StripRequest,
    pub kinds: StripKinds,
    pub answer: StripAnswer,
    /// The costs are those of the strip before and do not follow.
    pub same_costs: bool,
}

/// The first strips of a seed.
pub fn replayed_strips(seed: u64, count: usize) -> impl Iterator<Item = ReplayedStrip> {
    let mut costs_before = CostsBefore::default();
    (0..).take(count).map(move |index| {
        let (request, kinds) = fitting(seed, index);
        let same_costs = costs_before.are(&request.costs);
        let answer = strip_answer(&request);
        ReplayedStrip {
            request,
            kinds,
            answer,
            same_costs,
        }
    })
}

/// The first draw for a place that fits the form, so that each kind has its share of the places.
fn fitting(seed: u64, index: u64) -> (StripRequest, StripKinds) {
    let draws = (0..).map(|attempt| {
        let random = &mut Random::beside(seed, index + (attempt << 32), Beside::Strip);
        drawn(random, seed, index)
    });
    let mut fitting = draws.filter(|(request, _)| fits(request));
    fitting.next().expect("there is no end of draws")
}

/// Every second strip is damaged.
fn drawn(random: &mut Random, seed: u64, index: u64) -> (StripRequest, StripKinds) {
    let (length, sizes) = shape(random, index);
    let (mut request, mut kinds) = sound(random, length, sizes);
    if let Some(shared) = &mut kinds.shared {
        let (costs, kind) = group_costs(seed, index / GROUP);
        (request.costs, shared.costs) = (costs.to_vec(), kind);
    }
    kinds.damages = damages(random, index);
    for &kind in &kinds.damages {
        damage(random, kind, &mut request);
    }
    (request, kinds)
}

/// Long strips, and one with a great block, stand at fixed places, so that there are few; so do
/// close ones, at the end of a group, as they have costs of their own.
fn shape(random: &mut Random, index: u64) -> (Length, Sizes) {
    let length = random.pick(&[Length::One, Length::Few]);
    match index % 64 {
        35 if index == 35 => (length, Sizes::OneGreat),
        5 => (Length::All, Sizes::Tiny),
        21 => (Length::All, Sizes::Thin),
        37 => (Length::Some, Sizes::Small),
        53 => (Length::Many, Sizes::Thin),
        place if place % GROUP == GROUP - 1 => (length, Sizes::Close),
        place if place % 2 == 1 => (length, random.pick(&[Sizes::Small, Sizes::Equal])),
        _ => (length, random.pick(&[Sizes::Tiny, Sizes::Thin])),
    }
}

/// Damages that are done together, so that the order of the tests shows.
const PAIRS: &[[StripDamage; 2]] = &[
    [StripDamage::NoSides, StripDamage::SampleCount],
    [StripDamage::HalfPair, StripDamage::Side],
    [StripDamage::TooMany, StripDamage::Side],
    [StripDamage::Side, StripDamage::SampleCount],
    [StripDamage::SideRaised, StripDamage::MapRoom],
    [StripDamage::SampleCount, StripDamage::MapRoom],
    [StripDamage::SampleCount, StripDamage::FlagRoom],
    [StripDamage::MapRoom, StripDamage::Depth],
    [StripDamage::FlagsByOneSide, StripDamage::Lambda],
    [StripDamage::Depth, StripDamage::Lambda],
    [StripDamage::Lambda, StripDamage::Cost],
    [StripDamage::CostCount, StripDamage::Samples],
];

/// Each damage and each pair comes in its turn; one in four of the other strips has samples out of
/// range.
fn damages(random: &mut Random, index: u64) -> Vec<StripDamage> {
    let all = StripDamage::ALL;
    let turn = (index / 2) as usize % (all.len() + PAIRS.len());
    match index % 2 {
        0 if turn < all.len() => vec![all[turn]],
        0 => PAIRS[turn - all.len()].to_vec(),
        _ if random.one_in(4) => vec![StripDamage::Samples],
        _ => vec![],
    }
}

fn fits(request: &StripRequest) -> bool {
    request.sides.len() <= SIDES
        && request.sides.iter().all(|&side| side < 65_536)
        && request.bd < 256
        && request.costs.len() <= COSTS
        && request.map_room.max(request.samples.len()) <= CELLS
        && request.flag_room <= FLAGS
}

/// The bytes of a strip: a head of 16, then the sides, the costs unless those before are used
/// again, and the samples.
pub fn bytes(replayed: &ReplayedStrip) -> Vec<u8> {
    let request = &replayed.request;
    let mut bytes = vec![];
    put_pair(&mut bytes, request.sides.len() as u16);
    bytes.push(request.bd as u8);
    for count in [
        request.map_room,
        request.flag_room,
        request.samples.len(),
        request.costs.len(),
    ] {
        put_pair(&mut bytes, count as u16);
    }
    put_float(&mut bytes, request.lambda);
    bytes.push(u8::from(replayed.same_costs));
    for &side in &request.sides {
        put_pair(&mut bytes, side as u16);
    }
    let costs = if replayed.same_costs {
        &[]
    } else {
        &request.costs[..]
    };
    for &value in costs.iter().chain(&request.samples) {
        put_float(&mut bytes, value);
    }
    bytes
}

/// The strip's line and those of its blocks. The place is counted from 1.
pub fn lines(place: usize, replayed: &ReplayedStrip) -> String {
    let answer = &replayed.answer;
    let (mut map, mut flags) = ([FILL; CELLS], [FILL; FLAGS]);
    answer.write(&replayed.request, &mut map, &mut flags);
    let mut lines = format!(
        "{place} {} {} {} {}",
        answer.number,
        hash_answers(answer),
        hash_bytes(&map),
        hash_bytes(&flags),
    );
    // There are no answers after a refusal, and no places then.
    if answer.number == 0 {
        for (part, block) in parts(&replayed.request).iter().zip(&answer.blocks) {
            lines += &block_line(part, block, &map, &flags);
        }
    }
    lines
}

/// Number, n, orientation, colours, estimate, head and map bits, and the hashes of its part of map
/// and flags.
fn block_line(part: &Part, block: &SearchAnswer, map: &[u8], flags: &[u8]) -> String {
    let [n, colors @ .., orientation] = &block.fields;
    let colors: Vec<String> = colors.iter().map(u32::to_string).collect();
    format!(
        "\n {} {n} {orientation} {} {} {} {}",
        block.number,
        colors.join(" "),
        block
            .figures()
            .map(|figure| figure.to_bits().to_string())
            .join(" "),
        hash_bytes(&map[part.cells..][..part.w * part.h]),
        hash_bytes(&flags[part.flags..][..part.w.max(part.h)]),
    )
}

fn hash_bytes(bytes: &[u8]) -> u64 {
    hash(bytes.iter().map(|&byte| u32::from(byte)))
}

/// Of the fields of all 64 answers, each with its head and map bits behind them.
fn hash_answers(answer: &StripAnswer) -> u64 {
    let (fields, splits) = (answer.fields(), answer.splits());
    let each = fields.chunks_exact(FIELDS).zip(splits.chunks_exact(2));
    let words = each.flat_map(|(fields, split)| {
        let split = split.iter().map(|figure| figure.to_bits());
        fields.iter().copied().chain(split)
    });
    hash(words)
}
