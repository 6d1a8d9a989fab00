//! The block report: a page with a line for each block, and the totals.
//!
//! ```
//! use palette_station::report::{Listed, Report};
//! use palette_station::{list_into, search_into, Block, Costs};
//! use palette_station::{MAX_CELLS, MAX_LINES, MAX_WORDS};
//!
//! let (mut map, mut flags, mut words) = ([0; MAX_CELLS], [0; MAX_LINES], [0; MAX_WORDS]);
//! let mut report = Report::new();
//! // A stroke above bare paper, then bare paper alone, which has no palette.
//! for ink in [20.0, 255.0] {
//!     let samples = [[ink; 16], [255.0; 16]].concat();
//!     let block = Block { samples: &samples, width: 16, height: 2, bd: 8 };
//!     let found = search_into(&block, 60.0, &Costs::default(), &mut map, &mut flags);
//!     report.push(found.and_then(|palette| {
//!         let listing = list_into(&palette, &[], &mut words)?;
//!         Ok(Listed::of(&palette, &listing))
//!     }));
//! }
//! let mut page = Vec::new();
//! report.write(&mut page)?;
//! assert_eq!(String::from_utf8(page)?, concat!(
//!     "       1       9      32      20\n",
//!     "       2       0       0       0       9\n",
//!     "       0       9      32      20       5       8\n",
//! ));
//! # Ok::<(), Box<dyn std::error::Error>>(())
//! ```
//!
//! # The page
//!
//! Lines of text, each ended by one line feed; numbers at the right of fields of 8 columns. It is
//! the page that the proved program `report` prints for the texts of the same palettes:
//!
//! - for a block with a list its number from 1, calls, cells and raw width;
//! - for a refused block its number, 0, 0, 0 and what refused it; it counts nowhere;
//! - where there are more than 9,999 blocks, in place of all behind these 10000, 0, 0, 0 and 19;
//! - always, at the end, 0 and the sums over the lines before: calls, cells and raw width; then
//!   raw width per cell in lowest terms, numerator and denominator, which are 0 and 1 without
//!   cells.
//!
//! What ends the program's reading, a text that is no palette or a header that is refused, has no
//! place here: a report goes on after every refusal.

use crate::limits::{MAX_CELLS, MAX_WORDS};
use crate::{ListingView, PaletteView, Refusal};
use std::io::{self, Write};

/// The most blocks that a page has lines for, beside the one that says that there were more.
///
/// ```
/// assert_eq!(palette_station::report::MAX_BLOCKS, 9999);
/// ```
pub const MAX_BLOCKS: usize = 9999;

/// The most that a block adds to a total. More would not fit a field of 8 columns 9,999 times.
const MOST: usize = 10_000;

const _: () = assert!(MAX_WORDS <= MOST && MAX_CELLS <= MOST && MAX_BLOCKS * MOST < 100_000_000);

/// What a report has of a block with a list.
///
/// ```
/// use palette_station::report::Listed;
/// use palette_station::{list, Palette};
///
/// let palette = Palette::example();
/// let listed = Listed::of(&palette.view(), &list(&palette, &[])?.view());
/// assert_eq!((listed.calls(), listed.cells(), listed.raw_width()), (12, 8, 20));
/// # Ok::<(), palette_station::Refusal>(())
/// ```
#[derive(Clone, Copy, Debug, PartialEq, Eq, Hash)]
pub struct Listed {
    // Each at most `MOST`.
    calls: u16,
    cells: u16,
    raw_width: u16,
}

impl Listed {
    /// Of a palette and its listing. No list comes near 10,000 in any of the numbers; one made by
    /// hand that is above it is taken for 10,000, so that every total fits its field.
    ///
    /// ```
    /// use palette_station::report::Listed;
    /// use palette_station::{ListingView, Palette};
    ///
    /// let palette = Palette::example();
    /// let listing = ListingView { words: &[0; 20_000], raw_width: 7 };
    /// let listed = Listed::of(&palette.view(), &listing);
    /// assert_eq!((listed.calls(), listed.cells(), listed.raw_width()), (10_000, 8, 7));
    /// ```
    pub fn of(palette: &PaletteView<'_>, listing: &ListingView<'_>) -> Listed {
        let cut = |number: usize| number.min(MOST) as u16;
        Listed {
            calls: cut(listing.words.len()),
            cells: cut(palette.map.len()),
            raw_width: cut(listing.raw_width as usize),
        }
    }

    /// The number of calls.
    ///
    /// ```
    /// # use palette_station::{list, report::Listed, Palette};
    /// # let palette = Palette::example();
    /// let listing = list(&palette, &[])?;
    /// let listed = Listed::of(&palette.view(), &listing.view());
    /// assert_eq!(listed.calls() as usize, listing.words.len());
    /// # Ok::<(), palette_station::Refusal>(())
    /// ```
    pub fn calls(self) -> u32 {
        self.calls.into()
    }

    /// The number of cells.
    ///
    /// ```
    /// # use palette_station::{list, report::Listed, Palette};
    /// # let palette = Palette::example();
    /// # let listing = list(&palette, &[])?;
    /// let listed = Listed::of(&palette.view(), &listing.view());
    /// assert_eq!(listed.cells() as usize, palette.width * palette.height);
    /// # Ok::<(), palette_station::Refusal>(())
    /// ```
    pub fn cells(self) -> u32 {
        self.cells.into()
    }

    /// The raw width of the list.
    ///
    /// ```
    /// # use palette_station::{list, report::Listed, Palette};
    /// # let palette = Palette::example();
    /// let listing = list(&palette, &[])?;
    /// let listed = Listed::of(&palette.view(), &listing.view());
    /// assert_eq!(listed.raw_width(), listing.raw_width);
    /// # Ok::<(), palette_station::Refusal>(())
    /// ```
    pub fn raw_width(self) -> u32 {
        self.raw_width.into()
    }
}

/// The blocks of a report, one after the other; [the module](self) says how the page looks.
///
/// ```
/// use palette_station::report::Report;
/// use palette_station::Refusal;
///
/// let mut report = Report::new();
/// report.push(Err(Refusal::ONE_LEVEL));
/// assert_eq!(report.blocks(), 1);
/// assert_eq!(report.totals().cells, 0);
/// ```
#[derive(Clone, Debug, Default, PartialEq, Eq)]
pub struct Report {
    /// The first `MAX_BLOCKS`.
    first: Vec<Result<Listed, Refusal>>,
    blocks: usize,
}

impl Report {
    /// A report without blocks. Its page is the last line alone.
    ///
    /// ```
    /// let mut page = Vec::new();
    /// palette_station::report::Report::new().write(&mut page)?;
    /// assert_eq!(page, b"       0       0       0       0       0       1\n");
    /// # Ok::<(), std::io::Error>(())
    /// ```
    pub fn new() -> Report {
        Report::default()
    }

    /// Adds a block, listed or refused. Of those behind the first 9,999 only the number is kept.
    ///
    /// ```
    /// use palette_station::report::{Listed, Report};
    /// use palette_station::{list, Palette, Refusal};
    ///
    /// let palette = Palette::example();
    /// let mut report = Report::new();
    /// for cache in [&[][..], &[16; 65], &[16, 235]] {
    ///     let listing = list(&palette, cache);
    ///     report.push(listing.map(|listing| Listed::of(&palette.view(), &listing.view())));
    /// }
    /// assert_eq!(report.lines().nth(1), Some(Err(Refusal::CACHE)));
    /// assert_eq!(report.totals().calls, 12 + 11);
    /// ```
    pub fn push(&mut self, block: Result<Listed, Refusal>) {
        self.blocks += 1;
        if self.first.len() < MAX_BLOCKS {
            self.first.push(block);
        }
    }

    /// Adds all blocks of another report behind those of this one, as if each were pushed: for
    /// threads that make a report each.
    ///
    /// ```
    /// use palette_station::report::Report;
    /// use palette_station::Refusal;
    ///
    /// let [mut upper, mut lower] = [Report::new(), Report::new()];
    /// upper.push(Err(Refusal::ONE_LEVEL));
    /// lower.push(Err(Refusal::SMALL));
    /// upper.append(lower);
    /// assert!(upper.lines().eq([Err(Refusal::ONE_LEVEL), Err(Refusal::SMALL)]));
    /// ```
    pub fn append(&mut self, more: Report) {
        // Where the other report has not kept all, this one is full before they are due.
        let not_kept = more.blocks - more.first.len();
        more.first.into_iter().for_each(|block| self.push(block));
        self.blocks += not_kept;
    }

    /// How many blocks there are, also behind the first 9,999.
    ///
    /// ```
    /// use palette_station::report::Report;
    /// use palette_station::Refusal;
    ///
    /// let mut report = Report::new();
    /// (0..12_345).for_each(|_| report.push(Err(Refusal::SMALL)));
    /// assert_eq!(report.blocks(), 12_345);
    /// assert_eq!(report.lines().count(), 10_000);
    /// ```
    pub fn blocks(&self) -> usize {
        self.blocks
    }

    /// What stands in the lines of blocks, the first of which has number 1. Where there are more
    /// than 9,999 blocks the 10,000th line is refused by 19, and there is none behind it.
    ///
    /// ```
    /// use palette_station::report::{Report, MAX_BLOCKS};
    /// use palette_station::Refusal;
    ///
    /// let mut report = Report::new();
    /// (0..=MAX_BLOCKS).for_each(|_| report.push(Err(Refusal::SMALL)));
    /// assert_eq!(report.lines().last(), Some(Err(Refusal::BLOCK_COUNT)));
    /// ```
    pub fn lines(&self) -> impl Iterator<Item = Result<Listed, Refusal>> + '_ {
        let more = (self.blocks > MAX_BLOCKS).then_some(Err(Refusal::BLOCK_COUNT));
        self.first.iter().copied().chain(more)
    }

    /// The sums over the lines that are not refused.
    ///
    /// ```
    /// use palette_station::report::{Listed, Report};
    /// use palette_station::{list, Palette, Refusal};
    ///
    /// let palette = Palette::example();
    /// let mut report = Report::new();
    /// report.push(Ok(Listed::of(&palette.view(), &list(&palette, &[])?.view())));
    /// report.push(Err(Refusal::MAP));
    /// let totals = report.totals();
    /// assert_eq!((totals.calls, totals.cells, totals.raw_width), (12, 8, 20));
    /// # Ok::<(), Refusal>(())
    /// ```
    pub fn totals(&self) -> Totals {
        self.lines()
            .flatten()
            .fold(Totals::default(), |sum, block| Totals {
                calls: sum.calls + block.calls(),
                cells: sum.cells + block.cells(),
                raw_width: sum.raw_width + block.raw_width(),
            })
    }

    /// Writes the page. It is many small writes: a file wants a buffer before it.
    ///
    /// ```
    /// use palette_station::report::Report;
    /// use palette_station::Refusal;
    ///
    /// let mut report = Report::new();
    /// report.push(Err(Refusal::MAP));
    /// let mut page = Vec::new();
    /// report.write(&mut page)?;
    /// assert!(page.starts_with(b"       1       0       0       0      15\n       0 "));
    /// # Ok::<(), std::io::Error>(())
    /// ```
    pub fn write(&self, output: &mut impl Write) -> io::Result<()> {
        for (number, block) in (1..).zip(self.lines()) {
            match block {
                Ok(block) => {
                    let fields = [number, block.calls(), block.cells(), block.raw_width()];
                    write_fields(&fields, output)?;
                }
                Err(refusal) => write_fields(&[number, 0, 0, 0, refusal.number()], output)?,
            }
        }
        let totals = self.totals();
        let (numerator, denominator) = totals.raw_width_per_cell();
        let sums = [0, totals.calls, totals.cells, totals.raw_width];
        write_fields(&[&sums[..], &[numerator, denominator]].concat(), output)
    }
}

fn write_fields(fields: &[u32], output: &mut impl Write) -> io::Result<()> {
    let line: String = fields.iter().map(|field| format!("{field:8}")).collect();
    writeln!(output, "{line}")
}

/// The sums over the lines of a [`Report`].
///
/// ```
/// use palette_station::report::{Report, Totals};
///
/// assert_eq!(Report::new().totals(), Totals::default());
/// ```
#[derive(Clone, Copy, Debug, Default, PartialEq, Eq, Hash)]
pub struct Totals {
    /// Calls of all lists.
    pub calls: u32,
    /// Cells of all blocks with a list.
    pub cells: u32,
    /// The raw widths of all lists together.
    pub raw_width: u32,
}

impl Totals {
    /// The exact raw width per cell in lowest terms, numerator and denominator: 0 and 1 without
    /// cells.
    ///
    /// ```
    /// use palette_station::report::Totals;
    ///
    /// let totals = Totals { calls: 12, cells: 8, raw_width: 20 };
    /// assert_eq!(totals.raw_width_per_cell(), (5, 2));
    /// assert_eq!(Totals::default().raw_width_per_cell(), (0, 1));
    /// ```
    pub fn raw_width_per_cell(&self) -> (u32, u32) {
        if self.cells == 0 {
            return (0, 1);
        }
        let divisor = greatest_divisor(self.raw_width, self.cells);
        (self.raw_width / divisor, self.cells / divisor)
    }
}

/// The greatest number that divides both.
fn greatest_divisor(a: u32, b: u32) -> u32 {
    let (mut divisor, mut rest) = (a, b);
    while rest != 0 {
        (divisor, rest) = (rest, divisor % rest);
    }
    divisor
}
