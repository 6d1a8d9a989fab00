//! Document 01's numbers, from its table and not from the original. The original refuses only
//! by 8, 9 and 10; these tests keep the other cases away from it.

use crate::lent::COSTS;
use crate::original::{Block, Corner, Palette};

/// What a search is asked, as far as the tests look at it.
#[derive(Clone, Copy, Debug)]
pub struct Asked<'a> {
    pub w: usize,
    pub h: usize,
    pub bd: u32,
    pub lambda: f32,
    pub costs: &'a [f32],
    pub samples: &'a [f32],
    pub map_room: usize,
    pub flag_room: usize,
}

/// A block alone has room enough.
impl<'a> From<&'a Block> for Asked<'a> {
    fn from(block: &'a Block) -> Self {
        Asked {
            w: block.w,
            h: block.h,
            bd: block.bd,
            lambda: block.lambda,
            costs: &block.costs[..],
            samples: &block.samples,
            map_room: usize::MAX,
            flag_room: usize::MAX,
        }
    }
}

/// The number for a search, 0 if accepted: the table's rows 1 to 10 in their order.
pub fn search_number(asked: &Asked) -> u32 {
    let (w, h, bd, samples) = (asked.w, asked.h, asked.bd, asked.samples);
    if !sides_fit(w, h) {
        1
    } else if !(8..=12).contains(&bd) {
        2
    } else if samples.len() != w * h {
        3
    } else if !within(asked.lambda, 1 << 20) {
        4
    } else if asked.costs.len() != COSTS || !asked.costs.iter().all(|&cost| within(cost, 32)) {
        5
    } else if !samples.iter().all(|&sample| within(sample, top(bd))) {
        6
    } else if asked.map_room < w * h || asked.flag_room < w.max(h) {
        7
    } else {
        none_number(samples, w, h)
    }
}

/// From 0 to `end`, both included; -0.0 is, NaN is not.
fn within(value: f32, end: u32) -> bool {
    (0.0..=f64::from(end)).contains(&f64::from(value))
}

/// Which of 8, 9 and 10 a block gets, else 0.
pub fn none_number(samples: &[f32], w: usize, h: usize) -> u32 {
    if w < 16 && h < 16 {
        return 8;
    }
    match levels(samples).len() {
        1 => 9,
        2..=32 => 0,
        _ => 10,
    }
}

/// The levels of a block, ascending.
pub fn levels(samples: &[f32]) -> Vec<u32> {
    let mut levels: Vec<u32> = samples.iter().map(|&sample| level(sample)).collect();
    levels.sort_unstable();
    levels.dedup();
    levels
}

/// Half away from zero, for a sample not below 0. The sum is exact in f64.
pub fn level(sample: f32) -> u32 {
    (f64::from(sample) + 0.5).floor() as u32
}

pub fn top(bd: u32) -> u32 {
    (1 << bd) - 1
}

/// 0 and 1 give 0.
pub fn ceil_log2(value: u32) -> u32 {
    value.max(1).next_power_of_two().trailing_zeros()
}

/// The width that the steps of ascending literals begin with.
pub fn step_width(literals: &[u16], bd: u32) -> u32 {
    let step = |pair: &[u16]| u32::from(pair[1] - pair[0]);
    let largest = literals.windows(2).map(step).max();
    ceil_log2(largest.unwrap_or(0)).max(bd - 3)
}

pub(crate) fn sides_fit(w: usize, h: usize) -> bool {
    (1..=64).contains(&w) && (1..=64).contains(&h)
}

/// The number for a listing, 0 if accepted. Test 16 is about room and has no place here.
pub fn list_number(palette: &Palette, cache: &[u16]) -> u32 {
    if cache.len() > 64 && matches!(palette_number(palette), 0 | 14 | 15) {
        return 13;
    }
    palette_number(palette)
}

/// The number for `pred`, 0 if accepted.
pub fn palette_number(palette: &Palette) -> u32 {
    let (lines, len) = lines(palette);
    if !sides_fit(palette.w, palette.h) {
        1
    } else if !(8..=12).contains(&palette.bd) {
        2
    } else if !colors_fit(&palette.colors, palette.bd) {
        11
    } else if palette.transposed && (palette.w == 64 || palette.h == 64) {
        12
    } else if palette.map.len() != lines * len || palette.flags.len() != lines {
        14
    } else if !indices_fit(palette) || !flags_fit(palette) {
        15
    } else {
        0
    }
}

fn colors_fit(colors: &[u16], bd: u32) -> bool {
    (2..=8).contains(&colors.len())
        && colors.windows(2).all(|pair| pair[0] < pair[1])
        && colors.iter().all(|&color| u32::from(color) <= top(bd))
}

/// The number of lines and the cells of each.
pub fn lines(palette: &Palette) -> (usize, usize) {
    if palette.transposed {
        (palette.w, palette.h)
    } else {
        (palette.h, palette.w)
    }
}

/// The cells of a line: a row, or a column when transposed.
pub fn line(palette: &Palette, number: usize) -> Vec<u8> {
    let (_, len) = lines(palette);
    let cell = |at| {
        if palette.transposed {
            palette.map[at * palette.w + number]
        } else {
            palette.map[number * palette.w + at]
        }
    };
    (0..len).map(cell).collect()
}

fn indices_fit(palette: &Palette) -> bool {
    palette
        .map
        .iter()
        .all(|&index| usize::from(index) < palette.colors.len())
}

fn flags_fit(palette: &Palette) -> bool {
    palette.flags.iter().enumerate().all(|(number, &flag)| {
        let cells = line(palette, number);
        match flag {
            0 => true,
            1 => cells.iter().all(|&index| index == cells[0]),
            2 => number > 0 && cells == line(palette, number - 1),
            _ => false,
        }
    })
}

/// The number for a context, 0 if accepted.
pub fn context_number(corner: &Corner) -> u32 {
    let (y, x) = (corner.y, corner.x);
    let asked = (y, x) != (0, 0) && x < corner.stride && (2..=8).contains(&corner.n);
    let fits = |place: u128| {
        let index = usize::try_from(place)
            .ok()
            .and_then(|place| corner.map.get(place));
        index.is_some_and(|&index| usize::from(index) < corner.n)
    };
    if asked && neighbours(corner).into_iter().all(fits) {
        0
    } else {
        18
    }
}

/// The places of the neighbours that the context uses; in u128, where no product overflows.
pub fn neighbours(corner: &Corner) -> Vec<u128> {
    let (stride, y, x) = (corner.stride as u128, corner.y as u128, corner.x as u128);
    let place = |y: u128, x: u128| y * stride + x;
    match (y, x) {
        (0, 0) => vec![],
        (0, _) => vec![place(0, x - 1)],
        (_, 0) => vec![place(y - 1, 0)],
        _ => vec![place(y, x - 1), place(y - 1, x - 1), place(y - 1, x)],
    }
}
