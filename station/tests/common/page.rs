//! The page of a block report, worked out another way from document 02's text.

use palette_station::{list, Palette};

/// Calls, cells and raw width of a block, or the number that refused it.
pub type Line = Result<[u64; 3], u64>;

/// What a palette has on the page, listed without a cache.
pub fn line(palette: &Palette) -> Line {
    let listing = list(palette, &[]).map_err(|refusal| u64::from(refusal.number()))?;
    let cells = palette.width as u64 * palette.height as u64;
    Ok([listing.words.len() as u64, cells, listing.raw_width.into()])
}

pub fn page(blocks: &[Line]) -> String {
    let mut lines = blocks.to_vec();
    if lines.len() > 9999 {
        lines.truncate(9999);
        lines.push(Err(19));
    }
    let mut text = String::new();
    for (place, line) in lines.iter().enumerate() {
        let behind = line.map_or_else(|number| vec![0, 0, 0, number], Vec::from);
        text += &columns(&[vec![place as u64 + 1], behind].concat());
    }
    let sum = |field: usize| -> u64 { lines.iter().flatten().map(|line| line[field]).sum() };
    let [calls, cells, raw_width] = [0, 1, 2].map(sum);
    let [numerator, denominator] = lowest(raw_width, cells);
    text + &columns(&[0, calls, cells, raw_width, numerator, denominator])
}

fn columns(fields: &[u64]) -> String {
    let digits = fields.iter().map(u64::to_string);
    let fields: String = digits.map(|d| " ".repeat(8 - d.len()) + &d).collect();
    fields + "\n"
}

/// Every divisor is tried, from the largest.
fn lowest(numerator: u64, denominator: u64) -> [u64; 2] {
    let mut divisors = (1..=denominator.min(numerator)).rev();
    match divisors.find(|d| [numerator % d, denominator % d] == [0; 2]) {
        Some(divisor) => [numerator / divisor, denominator / divisor],
        None => [0, 1],
    }
}
