//! A call list read back.

use crate::archive::{self, Kept};
use crate::limits::{MAX_CELLS, MAX_LINES};
use crate::{Palette, PaletteView, Refusal};

/// Reads a palette back from its call list. Width, height, depth and cache are no part of a list:
/// they have to be those that it was listed with.
///
/// Listing and reading undo each other. What is read is the palette that was listed, and a list is
/// accepted only if [`list`](crate::list) would write that same list. So no two palettes share a
/// list for readers either. What the search counted is in no list: `head` and `map_bits` are 0.0, as in
/// every palette that it did not make.
///
/// Refused by 1, 2 and 13, tested in this order; then the earliest faulty word decides: 20 if the
/// list ends where a word is due, 21 if another word stands there. Then come 22 for words left over
/// and 23 for a list that reads to its end but that the listing would not write.
///
/// ```
/// use palette_station::{list, pred, read, search, Block, Costs, Palette, Refusal};
///
/// // A stroke of two greys on white, searched and listed.
/// let sample = |cell: usize| [20.0, 130.0, 250.0][(cell % 16).min(2)];
/// let samples: Vec<f32> = (0..16 * 8).map(sample).collect();
/// let block = Block { samples: &samples, width: 16, height: 8, bd: 8 };
/// let palette = search(&block, 60.0, &Costs::default())?;
/// let kept = list(&palette, &[])?.words;
///
/// // The list is read, and what was read is drawn: the picture of the palette found.
/// let back = read(16, 8, 8, &kept, &[])?;
/// assert_eq!(pred(&back)?, pred(&palette)?);
/// assert_eq!(back, Palette { head: 0.0, map_bits: 0.0, ..palette });
///
/// assert_eq!(read(16, 8, 8, &kept[..9], &[]), Err(Refusal::LIST_END));
/// # Ok::<(), Refusal>(())
/// ```
pub fn read(
    width: usize,
    height: usize,
    bd: u32,
    words: &[u32],
    cache: &[u16],
) -> Result<Palette, Refusal> {
    let mut map = [0; MAX_CELLS];
    let mut flags = [0; MAX_LINES];
    let read = read_into(width, height, bd, words, cache, &mut map, &mut flags);
    read.map(|palette| palette.to_palette())
}

/// The same with lent buffers. The map needs room for width × height indices and the flags for
/// the longer side, else it is refused by 7, behind 13 and before any word is looked at;
/// [`MAX_CELLS`] and [`MAX_LINES`] are always enough.
///
/// The palette borrows the front of both. What lies behind it, and after a refusal everything,
/// is as it was.
///
/// ```
/// use palette_station::{list, read_into, Palette, Refusal, MAX_CELLS, MAX_LINES};
///
/// let words = list(&Palette::example(), &[])?.words;
/// let (mut map, mut flags) = ([7; MAX_CELLS], [7; MAX_LINES]);
/// let refused = read_into(4, 2, 8, &words, &[], &mut map, &mut flags[..3]);
/// assert_eq!(refused, Err(Refusal::ROOM));
/// assert_eq!((map, flags), ([7; MAX_CELLS], [7; MAX_LINES]));
///
/// let palette = read_into(4, 2, 8, &words, &[], &mut map, &mut flags)?;
/// assert_eq!(palette, Palette::example().view());
/// # Ok::<(), Refusal>(())
/// ```
pub fn read_into<'b>(
    width: usize,
    height: usize,
    bd: u32,
    words: &[u32],
    cache: &[u16],
    map: &'b mut [u8],
    flags: &'b mut [u8],
) -> Result<PaletteView<'b>, Refusal> {
    let kept = Kept {
        width,
        height,
        bd,
        cache,
        words,
    };
    let mut fields = [0; 10];
    Refusal::check(archive::read(kept, map, flags, &mut fields))?;
    let sides = (width, height);
    // A list holds nothing of what the search counted.
    let bits = [0.0; 2];
    Ok(PaletteView::from_fields(
        sides, bd, fields, bits, map, flags,
    ))
}
