//! How a sheet is cut.

use std::ops::Range;

/// A block's place on its sheet.
///
/// ```
/// use palette_station::sheet::{Area, Settings, Sheet};
///
/// let sheet = Sheet::new(70, 1, 8, vec![7; 70])?;
/// let found = sheet.search(&Settings::of_depth(8), 1, |_, _| {})?;
/// let last = found.form.blocks().last().map(|(area, _)| area);
/// assert_eq!(last, Some(Area { x: 64, y: 0, width: 6, height: 1 }));
/// # Ok::<(), Box<dyn std::error::Error>>(())
/// ```
#[derive(Clone, Copy, Debug, PartialEq, Eq)]
pub struct Area {
    /// The first column.
    pub x: usize,
    /// The first row.
    pub y: usize,
    /// Columns.
    pub width: usize,
    /// Rows.
    pub height: usize,
}

impl Area {
    pub(super) fn cells(self) -> usize {
        self.width * self.height
    }
}

/// The blocks of a sheet, row by row.
pub(super) fn blocks(width: usize, height: usize, side: usize) -> impl Iterator<Item = Area> {
    let tops = (0..height).step_by(side);
    tops.flat_map(move |y| in_row((width, height), side, y, 0..width))
}

/// The blocks of a row, whose first sample row is `y`, that begin in these columns. The first
/// column is a block's.
pub(super) fn in_row(
    (width, height): (usize, usize),
    side: usize,
    y: usize,
    columns: Range<usize>,
) -> impl Iterator<Item = Area> + Clone {
    columns.step_by(side).map(move |x| Area {
        x,
        y,
        width: side.min(width - x),
        height: side.min(height - y),
    })
}
