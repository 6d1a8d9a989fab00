//! Whole sheets: cut into blocks, searched side by side in threads, and known by one form.
//!
//! ```
//! use palette_station::sheet::{Form, Settings, Sheet};
//!
//! // Bare paper, and a wash of 64 levels; then a mark in the wash. Neither block has a palette.
//! let sample = |cell: usize| if cell % 128 < 64 { 240 } else { 100 + (cell % 64) as u16 };
//! let wash = Sheet::new(128, 64, 8, (0..128 * 64).map(sample).collect())?;
//! let mut samples = wash.samples().to_vec();
//! samples[100] = 0;
//! let marked = Sheet::new(128, 64, 8, samples)?;
//!
//! let settings = Settings::of_depth(8);
//! let key = |sheet: &Sheet| -> Result<Vec<u8>, Box<dyn std::error::Error>> {
//!     let mut key = Vec::new();
//!     sheet.search(&settings, 2, |_, _| {})?.form.write(&mut key)?;
//!     Ok(key)
//! };
//! assert_eq!(key(&wash)?, key(&wash)?);
//! assert_ne!(key(&wash)?, key(&marked)?);
//! assert_eq!(Form::read(&key(&marked)?)?.blocks().count(), 2);
//! # Ok::<(), Box<dyn std::error::Error>>(())
//! ```
//!
//! # What a sheet is known by
//!
//! Proved is (demand 3): of two accepted palettes of one width, height, depth and cache, one call
//! list begins the other exactly when the palettes are the same. That says nothing of blocks
//! without a palette, which have no list, nor of how blocks make up a sheet. So a sheet is known
//! by its [`Form`], which holds all of this and can be read back:
//!
//! - width, height and depth, and the [`Settings`]: side, levels, lambda and costs;
//! - for each block with a palette its call list, listed without a cache;
//! - for each block without one its number, and what no list holds: the level of a block of one
//!   level (9), the samples of a small block (8) or of one with more than 32 levels (10).
//!
//! Two forms are equal exactly when all of this is, lambda and costs to the bit. That is tested,
//! not proved. Equal forms then mean equal palettes in every block that has one, and equal samples
//! (as rounded, where levels are set) in every other. Two scans may still differ inside a block
//! with a palette, where the search gives both the same one.
//!
//! The block report of a sheet, [`Searched::report`], is no part of this: it has numbers only.
//!
//! # The form
//!
//! Lines of text, each ended by one line feed; numbers without leading zeros, those of blocks at
//! the right of fields of 8 columns.
//!
//! ```text
//! palette-sheet 1            the form's name and version
//! width 37
//! height 16
//! depth 8
//! side 16
//! levels 0                   0: as scanned
//! lambda 42700000            the bits of the f32 as 8 hex digits: 60
//! costs
//! 3e000000 40640000 ..       43 lines of 7, written as lambda is
//!      277                   a block with a palette: its list as the listing program prints it,
//!        3       0       0   the number of calls, then kind, first and second of each
//!        1       8      20
//!        ..
//!        0       9     240   a block of one level: 0, 9 and the level
//!        0      10           any other block: 0, its number,
//! 0001020304                 and its rows, 2 hex digits a sample at depth 8, else 3
//! ..
//! ```
//!
//! Blocks come row by row from the top, each row from the left; those at the right and lower edge
//! are as small as the sheet leaves them.

mod area;
mod form;
mod levels;
mod parts;
mod reading;
mod searching;
mod shares;

pub use area::Area;
pub use form::Form;
pub use levels::Levels;
pub use parts::Part;
pub use reading::NoForm;
pub use searching::{Failure, Searched};

use crate::limits::MAX_SIDE;
use crate::{Costs, Refusal};

/// A scanned sheet: grey samples, row by row from the top.
///
/// ```
/// use palette_station::sheet::Sheet;
///
/// let sheet = Sheet::new(3, 2, 10, vec![0, 1, 2, 1021, 1022, 1023])?;
/// assert_eq!((sheet.width(), sheet.height(), sheet.bd()), (3, 2, 10));
/// # Ok::<(), palette_station::Refusal>(())
/// ```
#[derive(Clone, Debug, PartialEq, Eq)]
pub struct Sheet {
    width: usize,
    height: usize,
    bd: u32,
    samples: Vec<u16>,
}

impl Sheet {
    /// A sheet of any sides from 1. Refused as a block is: by 1 for a side of 0, by 2 for a depth
    /// outside 8..12, by 3 unless there are width × height samples, by 6 for one above 2^bd - 1.
    ///
    /// ```
    /// use palette_station::{sheet::Sheet, Refusal};
    ///
    /// assert_eq!(Sheet::new(0, 1, 8, vec![]), Err(Refusal::SIDE));
    /// assert_eq!(Sheet::new(1, 1, 13, vec![0]), Err(Refusal::DEPTH));
    /// assert_eq!(Sheet::new(1, 2, 8, vec![0]), Err(Refusal::SAMPLE_COUNT));
    /// assert_eq!(Sheet::new(1, 1, 8, vec![256]), Err(Refusal::SAMPLE));
    /// ```
    pub fn new(width: usize, height: usize, bd: u32, samples: Vec<u16>) -> Result<Sheet, Refusal> {
        if width == 0 || height == 0 {
            return Err(Refusal::SIDE);
        }
        if !(8..=12).contains(&bd) {
            return Err(Refusal::DEPTH);
        }
        if width.checked_mul(height) != Some(samples.len()) {
            return Err(Refusal::SAMPLE_COUNT);
        }
        if samples.iter().any(|&sample| sample > top_level(bd)) {
            return Err(Refusal::SAMPLE);
        }
        Ok(Sheet {
            width,
            height,
            bd,
            samples,
        })
    }

    /// Samples in a row.
    ///
    /// ```
    /// # use palette_station::sheet::Sheet;
    /// assert_eq!(Sheet::new(2, 1, 8, vec![0, 255])?.width(), 2);
    /// # Ok::<(), palette_station::Refusal>(())
    /// ```
    pub fn width(&self) -> usize {
        self.width
    }

    /// Rows.
    ///
    /// ```
    /// # use palette_station::sheet::Sheet;
    /// assert_eq!(Sheet::new(2, 1, 8, vec![0, 255])?.height(), 1);
    /// # Ok::<(), palette_station::Refusal>(())
    /// ```
    pub fn height(&self) -> usize {
        self.height
    }

    /// Bits of a sample.
    ///
    /// ```
    /// # use palette_station::sheet::Sheet;
    /// assert_eq!(Sheet::new(2, 1, 8, vec![0, 255])?.bd(), 8);
    /// # Ok::<(), palette_station::Refusal>(())
    /// ```
    pub fn bd(&self) -> u32 {
        self.bd
    }

    /// All samples.
    ///
    /// ```
    /// # use palette_station::sheet::Sheet;
    /// assert_eq!(Sheet::new(2, 1, 8, vec![0, 255])?.samples(), [0, 255]);
    /// # Ok::<(), palette_station::Refusal>(())
    /// ```
    pub fn samples(&self) -> &[u16] {
        &self.samples
    }

    /// The rows of an area, from the top.
    fn rows(&self, area: Area) -> impl Iterator<Item = &[u16]> {
        let rows = area.y..area.y + area.height;
        rows.map(move |y| &self.samples[y * self.width + area.x..][..area.width])
    }
}

/// What a sheet's lists depend on beside its samples. All of it is part of the sheet's [`Form`].
///
/// ```
/// use palette_station::sheet::{Levels, Settings};
///
/// let settings = Settings {
///     side: 32,
///     levels: Levels::new(16),
///     ..Settings::of_depth(8)
/// };
/// assert_eq!(settings.lambda, 60.0);
/// ```
#[derive(Clone, Debug, PartialEq)]
pub struct Settings {
    /// The longest side of a block, 1 to 64; a search with another is refused by 1.
    pub side: usize,
    /// How many greys the samples are rounded to before the search, if at all.
    pub levels: Option<Levels>,
    /// What a bit weighs beside squared error, as in [`search`](crate::search).
    pub lambda: f32,
    /// What each symbol costs.
    pub costs: Costs,
}

impl Settings {
    /// Blocks of 64 by 64, samples as they are, the default costs, and a lambda that follows the
    /// depth: 60 × 4^(bd - 8). It weighs against squared error, which a bit more of depth makes
    /// four times as large; so one drawing gets like palettes at every depth.
    ///
    /// ```
    /// use palette_station::sheet::Settings;
    ///
    /// assert_eq!(Settings::of_depth(8).lambda, 60.0);
    /// assert_eq!(Settings::of_depth(12).lambda, 15360.0);
    /// ```
    pub fn of_depth(bd: u32) -> Settings {
        // Outside 8..12 there is no sheet to use it on.
        let more = bd.clamp(8, 12) - 8;
        Settings {
            side: MAX_SIDE,
            levels: None,
            lambda: 60.0 * (1 << (2 * more)) as f32,
            costs: Costs::default(),
        }
    }
}

fn top_level(bd: u32) -> u16 {
    (1 << bd) - 1
}
