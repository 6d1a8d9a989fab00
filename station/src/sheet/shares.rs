//! How the blocks of a sheet are shared out to threads.

use super::{area, Area};
use crate::limits::MAX_STRIP;

/// The shares of a sheet, by their places from the top and in a row from the left: each is a row
/// of blocks or a part of one, and is searched by one thread.
#[derive(Clone, Copy)]
pub(super) struct Shares {
    sides: (usize, usize),
    side: usize,
    /// The most blocks in a share.
    blocks: usize,
    /// The most blocks in a strip.
    pub(super) in_strip: usize,
    /// How many shares a row has.
    pub(super) in_row: usize,
    /// How many rows of blocks there are.
    pub(super) rows: usize,
}

/// About as many shares are made for each thread, where there are blocks enough: so none waits long
/// for another at the end.
const FOR_EACH: usize = 4;

/// For more threads than these no row is cut into more parts.
const MOST_THREADS: usize = 256;

impl Shares {
    /// Whole rows, unless these are too few for the threads. Each share that is ended wakes the
    /// thread that puts them together: were each strip of 64 blocks of one sample a share, a sheet
    /// would take 1.7 times as long.
    pub(super) fn new((width, height): (usize, usize), side: usize, threads: usize) -> Shares {
        let (columns, rows) = (width.div_ceil(side), height.div_ceil(side));
        let parts = (FOR_EACH * threads.clamp(1, MOST_THREADS)).div_ceil(rows);
        let blocks = columns.div_ceil(parts);
        Shares {
            sides: (width, height),
            side,
            blocks,
            in_strip: blocks.min(MAX_STRIP),
            in_row: columns.div_ceil(blocks),
            rows,
        }
    }

    pub(super) fn count(self) -> usize {
        self.in_row * self.rows
    }

    /// The strips of a share, each as its blocks.
    pub(super) fn strips(
        self,
        place: usize,
    ) -> impl Iterator<Item = impl Iterator<Item = Area> + Clone> {
        let (row, part) = (place / self.in_row, place % self.in_row);
        let (left, right) = (part * self.blocks, (part + 1) * self.blocks);
        let right = self.sides.0.min(right * self.side);
        let step = self.in_strip * self.side;
        (left * self.side..right).step_by(step).map(move |x| {
            let columns = x..right.min(x + step);
            area::in_row(self.sides, self.side, row * self.side, columns)
        })
    }
}

#[cfg(test)]
mod tests;
