//! The blocks that the crate `asking` is run on, and the lines that it must print: one for each
//! map search.

use crate::check::levels;
use crate::generate::blocks::block;
use crate::generate::costs::logarithms;
use crate::generate::searches::SearchRequest;
use crate::generate::sheets::{corners, hatching, Sheet, DEPTH};
use crate::map_searches::{map_searches, MapSearch};
use crate::original::Block;
use crate::replay_blocks::{request_bytes, CostsBefore};
use std::iter;

/// What the crate reads at most.
pub const MOST_BLOCKS: usize = 9_999;

const COLUMNS: &str = "block colours orientation lines first later same";

/// The first seed. The hatching that is timed has another, and no block of eight levels.
const SHEET_SEED: u64 = 0;
const LAMBDA: f32 = 60.0;

/// Hatching in eight levels, 64 by 64, and the same without its last row and column: orientation
/// is a choice only where both sides are below 64.
pub fn hatched() -> [Block; 2] {
    let sheet = hatching(SHEET_SEED);
    let corner = eight_levels(&sheet).expect("the sheet was chosen for it");
    [64, 63].map(|side| square(&sheet, corner, side))
}

/// The left upper corner of the first block in a sheet's cut that has eight levels.
pub fn eight_levels(sheet: &Sheet) -> Option<(usize, usize)> {
    corners(64).find(|&corner| levels(&sheet.cut(corner, 64).samples).len() == 8)
}

fn square(sheet: &Sheet, corner: (usize, usize), side: usize) -> Block {
    let cut = sheet.cut(corner, side);
    Block {
        w: cut.w,
        h: cut.h,
        bd: DEPTH,
        lambda: LAMBDA,
        costs: logarithms(),
        samples: cut.samples,
    }
}

/// The first blocks of a seed. All pass tests 1 to 7 and fit the form.
pub fn fresh(seed: u64, count: usize) -> impl Iterator<Item = Block> {
    (0..count as u64).map(move |index| block(seed, index).0)
}

/// The blocks with exact rooms, in the form that `replay_blocks` reads too.
pub fn input(blocks: impl Iterator<Item = Block>) -> impl Iterator<Item = Vec<u8>> {
    let mut costs_before = CostsBefore::default();
    blocks.map(move |block| {
        let same_costs = costs_before.are(&block.costs[..]);
        request_bytes(&SearchRequest::from(block), same_costs)
    })
}

/// The names of the columns, then the lines. Places are counted from 1, and a refused block has
/// no line.
pub fn output(blocks: impl Iterator<Item = Block>) -> impl Iterator<Item = String> {
    let lines = (1..).zip(blocks).flat_map(|(place, block)| {
        let made = map_searches(&block).into_iter();
        made.map(move |map_search| line(place, &map_search))
    });
    iter::once(COLUMNS.to_string())
        .chain(lines)
        .map(|line| line + "\n")
}

/// The first four numbers are the original's. The others are document 02's sentence: no asking in
/// the first line, one in each later line that is reached; and 1, since the copy that counts gives
/// the map of our own map search.
fn line(place: usize, map_search: &MapSearch) -> String {
    let MapSearch { colors, lines, .. } = map_search;
    let orientation = u8::from(map_search.transposed);
    format!("{place} {colors} {orientation} {lines} 0 {} 1", lines - 1)
}
