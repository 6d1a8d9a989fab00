//! What the report program must print, read from document 02's L1 and not from our crates: a line
//! for each palette of a text, then a last one with the totals.

use crate::check::list_number;
use crate::listing_text::{take, text_of};
use crate::original::{list, raw_width, Palette};

/// The most palettes of a text.
pub const MOST: usize = 9_999;

/// The number for text behind the last palette that is read.
const TOO_MANY: u32 = 19;

/// Calls, cells and raw width of a block, or the number of its refusal.
pub type Measures = Result<[u64; 3], u32>;

/// The blocks of a text, and the number that ended the reading; none if the text did.
#[derive(Debug, PartialEq)]
pub struct Reading {
    pub blocks: Vec<Measures>,
    pub ended_by: Option<u32>,
}

/// The output for a text.
pub fn report(text: &[u8]) -> Vec<u8> {
    page(&read(text).blocks)
}

/// Palette after palette. One that is in form but refused does not end the reading.
pub fn read(text: &[u8]) -> Reading {
    let mut rest = text;
    let mut blocks = vec![];
    while !rest.is_empty() && blocks.len() < MOST {
        match take(&mut rest) {
            Ok((palette, cache)) => blocks.push(measures(&palette, &cache)),
            Err(number) => return ended(blocks, number),
        }
    }
    if !rest.is_empty() {
        return ended(blocks, TOO_MANY);
    }
    Reading {
        blocks,
        ended_by: None,
    }
}

/// The number stands in a line of its own.
fn ended(mut blocks: Vec<Measures>, number: u32) -> Reading {
    blocks.push(Err(number));
    Reading {
        blocks,
        ended_by: Some(number),
    }
}

fn measures(palette: &Palette, cache: &[u16]) -> Measures {
    match list_number(palette, cache) {
        0 => {
            let words = list(palette, cache);
            let cells = palette.w * palette.h;
            Ok([words.len() as u64, cells as u64, raw_width(&words).into()])
        }
        number => Err(number),
    }
}

/// The lines of the blocks, then the last one: 0, the totals, and raw width per cell.
pub fn page(blocks: &[Measures]) -> Vec<u8> {
    let mut lines: Vec<Vec<u64>> = (1..).zip(blocks).map(line).collect();
    let [calls, cells, width] = totals(blocks);
    let (numerator, denominator) = lowest_terms(width, cells);
    lines.push(vec![0, calls, cells, width, numerator, denominator]);
    text_of(&lines)
}

fn line((number, block): (u64, &Measures)) -> Vec<u64> {
    match *block {
        Ok([calls, cells, width]) => vec![number, calls, cells, width],
        Err(refusal) => vec![number, 0, 0, 0, refusal.into()],
    }
}

/// A refused block adds nothing.
fn totals(blocks: &[Measures]) -> [u64; 3] {
    let mut totals = [0; 3];
    for measures in blocks.iter().flatten() {
        totals.iter_mut().zip(measures).for_each(|(t, m)| *t += m);
    }
    totals
}

/// Raw width per cell.
fn lowest_terms(width: u64, cells: u64) -> (u64, u64) {
    if cells == 0 {
        return (0, 1);
    }
    let divisor = greatest_divisor(width, cells);
    (width / divisor, cells / divisor)
}

/// By Euclid.
fn greatest_divisor(a: u64, b: u64) -> u64 {
    if b == 0 {
        a
    } else {
        greatest_divisor(b, a % b)
    }
}
