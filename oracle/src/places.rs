//! Which symbol each of the 301 places of the cost table belongs to.

use crate::av2::palette::{COLOR_ICDF, ROW_ICDF, Y_MODE_ICDF, Y_SIZE_ICDF};
use crate::lent::COSTS;

pub(crate) const MODE: usize = 0;
pub(crate) const SIZE: usize = 2;
pub(crate) const ROW: usize = 9;
pub(crate) const COLOR: usize = 21;

// Statics, so that a row can be lent; a `const` would be copied at each use.
static MODE_ROW: [u16; 1] = [Y_MODE_ICDF];
static SIZE_ROW: [u16; 6] = Y_SIZE_ICDF;
static ROW_ROWS: [[u16; 2]; 4] = ROW_ICDF;
static COLOR_ROWS: [[[u16; 7]; 5]; 7] = COLOR_ICDF;

/// The cumulative row, the symbol in it and the number of its symbols at a place.
pub(crate) fn ask_at(place: usize) -> (&'static [u16], usize, usize) {
    match place {
        MODE..SIZE => (&MODE_ROW, place - MODE, 2),
        SIZE..ROW => (&SIZE_ROW, place - SIZE, 7),
        ROW..COLOR => (&ROW_ROWS[(place - ROW) / 3], (place - ROW) % 3, 3),
        _ => {
            let (row, rank) = ((place - COLOR) / 8, (place - COLOR) % 8);
            (&COLOR_ROWS[row / 5][row % 5], rank, row / 5 + 2)
        }
    }
}

/// A colour row has room for eight ranks, but n colours have only n: the rest is never asked.
pub(crate) fn is_used(place: usize) -> bool {
    let (_, symbol, symbols) = ask_at(place);
    symbol < symbols
}

/// The first used place at or after `from`.
pub(crate) fn used_from(from: usize) -> Option<usize> {
    (from..COSTS).find(|&place| is_used(place))
}

/// The original's own rows, one behind the other as an adapted table has them.
pub fn default_numbers() -> Vec<u16> {
    let rows = ROW_ROWS.as_flattened();
    let colors = COLOR_ROWS.as_flattened().as_flattened();
    [&MODE_ROW[..], &SIZE_ROW, rows, colors].concat()
}
