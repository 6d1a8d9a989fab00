//! The search for a block's palette.

use crate::archive::{self, Asked};
use crate::limits::{MAX_CELLS, MAX_LINES};
use crate::{Costs, Palette, PaletteView, Refusal};

/// A block of samples, row by row.
///
/// ```
/// use palette_station::Block;
///
/// let samples = [0.0; 32];
/// let block = Block { samples: &samples, width: 16, height: 2, bd: 8 };
/// assert_eq!(block.samples.len(), block.width * block.height);
/// ```
#[derive(Clone, Copy, Debug, PartialEq)]
pub struct Block<'a> {
    /// Width × height samples, each within 0..2^bd - 1.
    pub samples: &'a [f32],
    /// Samples in a row, 1 to 64.
    pub width: usize,
    /// Rows, 1 to 64.
    pub height: usize,
    /// Bits of a sample, 8 to 12.
    pub bd: u32,
}

/// Whether a block of these sides, in units of four samples, may have a palette: each at most 16,
/// their product at least 4. The coder writes the mode symbol for such blocks only.
///
/// ```
/// use palette_station::block_allowed;
///
/// assert!(block_allowed(2, 2));
/// assert!(!block_allowed(1, 2));
/// assert!(!block_allowed(17, 1));
/// ```
pub fn block_allowed(bw4: usize, bh4: usize) -> bool {
    archive::block_allowed(bw4, bh4)
}

/// Finds the palette of a block. `lambda`, within 0..2^20, is what a bit weighs beside squared
/// error: 0 takes as many colours as help at all, more gives plainer maps.
///
/// Refused by 1 to 10, tested in this order; 8, 9 and 10 mean only that the block has no palette.
///
/// The colours are the rounded means of n groups in a row of the block's levels, which are the
/// samples rounded. The squared distances of all cells' levels from the unrounded means of their
/// groups add up to at most 1/2048 more than those of any other cut of the levels into n groups.
///
/// ```
/// use palette_station::{search, Block, Costs, Refusal};
///
/// let samples: Vec<f32> = (0..256).map(|place| (place / 128 * 200) as f32).collect();
/// let block = Block { samples: &samples, width: 16, height: 16, bd: 8 };
/// let palette = search(&block, 60.0, &Costs::default())?;
/// assert_eq!(palette.colors[..], [0, 200]);
/// assert_eq!(palette.color_at(15, 15), Some(200));
///
/// let blank = Block { samples: &[255.0; 256], ..block };
/// let refusal = search(&blank, 60.0, &Costs::default()).unwrap_err();
/// assert_eq!(refusal, Refusal::ONE_LEVEL);
/// assert!(refusal.means_no_palette());
/// # Ok::<(), Refusal>(())
/// ```
pub fn search(block: &Block<'_>, lambda: f32, costs: &Costs) -> Result<Palette, Refusal> {
    let mut map = [0; MAX_CELLS];
    let mut flags = [0; MAX_LINES];
    search_into(block, lambda, costs, &mut map, &mut flags).map(|found| found.to_palette())
}

/// The same with lent buffers. The map needs room for width × height indices and the flags for
/// the longer side, else it is refused by 7; [`MAX_CELLS`] and [`MAX_LINES`] are always enough.
///
/// The palette borrows the front of both. What lies behind it, and after a refusal everything,
/// is as it was.
///
/// ```
/// use palette_station::{search_into, Block, Costs, MAX_CELLS, MAX_LINES};
///
/// // Made once for all blocks.
/// let (mut map, mut flags) = ([0; MAX_CELLS], [0; MAX_LINES]);
/// let costs = Costs::default();
/// for ink in [0.0, 40.0] {
///     let samples = [[ink; 16], [255.0; 16]].concat();
///     let block = Block { samples: &samples, width: 16, height: 2, bd: 8 };
///     let palette = search_into(&block, 60.0, &costs, &mut map, &mut flags)?;
///     assert_eq!(palette.colors[..], [ink as u16, 255]);
///     assert_eq!(palette.map.len(), 32);
///     assert_eq!(palette.flags.len(), palette.lines());
/// }
/// # Ok::<(), palette_station::Refusal>(())
/// ```
pub fn search_into<'b>(
    block: &Block<'_>,
    lambda: f32,
    costs: &Costs,
    map: &'b mut [u8],
    flags: &'b mut [u8],
) -> Result<PaletteView<'b>, Refusal> {
    let asked = Asked {
        samples: block.samples,
        width: block.width,
        height: block.height,
        bd: block.bd,
        lambda,
        costs: costs.as_table(),
    };
    let (mut fields, mut bits) = ([0; 10], [0.0; 2]);
    Refusal::check(archive::search(asked, map, flags, &mut fields, &mut bits))?;
    let sides = (block.width, block.height);
    Ok(PaletteView::from_fields(
        sides, block.bd, fields, bits, map, flags,
    ))
}
