//! The search of a whole strip: up to 64 blocks in one call.

use crate::archive::{self, AskedStrip};
use crate::limits::{MAX_LINES, MAX_SIDE, MAX_STRIP};
use crate::{Block, Costs, Palette, PaletteView, Refusal};
use std::iter::FusedIterator;
use std::ops::Range;
use std::vec;

/// Finds the palettes of up to 64 blocks and goes through the answers, in their order. Each is the
/// one that [`search`](crate::search) gives for that block alone, and where a block is refused the
/// others go on.
///
/// The strip as a whole is refused by 19 for no block or more than 64, by 1 for a side outside
/// 1..64 in any block, by 3 unless each block has width × height samples, tested in this order.
/// Every other number is the block's own, also 2, 4 and 5. Blocks may have different depths: each
/// run of one depth is a call of its own.
///
/// ```
/// use palette_station::{list, search_strip, Block, Costs, Refusal};
///
/// // A stroke, bare paper, and a stroke of another size and depth.
/// let samples = [[20.0; 64], [250.0; 64]].concat();
/// let block = |first: usize, width, height, bd| Block {
///     samples: &samples[first..][..width * height],
///     width,
///     height,
///     bd,
/// };
/// let blocks = [block(48, 16, 2, 8), block(64, 16, 4, 8), block(0, 2, 64, 10)];
/// let answers = search_strip(&blocks, 60.0, &Costs::default())?;
/// assert_eq!(answers.len(), 3);
/// for (block, answer) in blocks.iter().zip(answers.clone()) {
///     match answer {
///         Ok(palette) => println!("{} calls", list(&palette, &[])?.words.len()),
///         Err(refusal) => println!("{} by {}: {refusal}", block.width, block.height),
///     }
/// }
/// let refused: Vec<Option<Refusal>> = answers.map(Result::err).collect();
/// assert_eq!(refused, [None, Some(Refusal::ONE_LEVEL), None]);
///
/// let none = search_strip(&[], 60.0, &Costs::default());
/// assert_eq!(none.err(), Some(Refusal::BLOCK_COUNT));
/// # Ok::<(), Refusal>(())
/// ```
pub fn search_strip(
    blocks: &[Block<'_>],
    lambda: f32,
    costs: &Costs,
) -> Result<vec::IntoIter<Result<Palette, Refusal>>, Refusal> {
    check(blocks)?;
    let mut answers = Vec::with_capacity(blocks.len());
    for run in blocks.chunk_by(|block, next| block.bd == next.bd) {
        search_run(run, lambda, costs, &mut answers)?;
    }
    Ok(answers.into_iter())
}

/// What refuses a strip as a whole. The archive tests the same, but of the samples it has only
/// those of all blocks together: one too few and the next one too many would go unseen there, and
/// shift what lies between.
fn check(blocks: &[Block<'_>]) -> Result<(), Refusal> {
    let is_side = |side| (1..=MAX_SIDE).contains(&side);
    if !(1..=MAX_STRIP).contains(&blocks.len()) {
        return Err(Refusal::BLOCK_COUNT);
    }
    if !blocks.iter().all(|b| is_side(b.width) && is_side(b.height)) {
        return Err(Refusal::SIDE);
    }
    if !blocks.iter().all(|b| b.samples.len() == b.width * b.height) {
        return Err(Refusal::SAMPLE_COUNT);
    }
    Ok(())
}

/// Searches blocks of one depth, of which there is one at least.
fn search_run(
    run: &[Block<'_>],
    lambda: f32,
    costs: &Costs,
    answers: &mut Vec<Result<Palette, Refusal>>,
) -> Result<(), Refusal> {
    let sides: Vec<[usize; 2]> = run.iter().map(|b| [b.width, b.height]).collect();
    let samples = run.iter().map(|b| b.samples).collect::<Vec<_>>().concat();
    let blocks = Blocks {
        sides: &sides,
        samples: &samples,
        bd: run[0].bd,
    };
    let mut map = vec![0; samples.len()];
    let mut flags = vec![0; run.len() * MAX_LINES];
    let found = search_strip_into(&blocks, lambda, costs, &mut map, &mut flags)?;
    answers.extend(found.map(|answer| answer.map(|palette| palette.to_palette())));
    Ok(())
}

/// Up to 64 blocks of one depth, their samples one block after the other.
///
/// ```
/// use palette_station::Blocks;
///
/// // 16 by 2, then 4 by 4.
/// let samples = [0.0; 32 + 16];
/// let blocks = Blocks { sides: &[[16, 2], [4, 4]], samples: &samples, bd: 8 };
/// let cells: usize = blocks.sides.iter().map(|[width, height]| width * height).sum();
/// assert_eq!(blocks.samples.len(), cells);
/// ```
#[derive(Clone, Copy, Debug, PartialEq)]
pub struct Blocks<'a> {
    /// Width and height of each block, 1 to 64.
    pub sides: &'a [[usize; 2]],
    /// Width × height samples of each block, row by row and block after block.
    pub samples: &'a [f32],
    /// Bits of a sample, 8 to 12.
    pub bd: u32,
}

/// The same with lent buffers, for blocks of one depth whose samples stand one block after the
/// other already: then nothing is copied or allocated.
///
/// A block's map and flags have their places behind those of the block before it: width × height
/// in `map`, and the longer side in `flags`. The strip as a whole is refused by 19, 1 and 3, where
/// only the samples of all blocks together are counted, and by 7 where either room is too small for
/// all blocks, tested in this order. [`MAX_STRIP`] times [`MAX_CELLS`](crate::MAX_CELLS) and
/// [`MAX_LINES`] are always enough.
///
/// The palettes borrow their blocks' places. What lies behind a block's flags, or behind all
/// blocks, is as it was; so are the places of a refused block, and after a refusal as a whole all
/// of both buffers.
///
/// ```
/// use palette_station::{list_into, search_strip_into, Blocks, Costs, Refusal, MAX_WORDS};
///
/// // Made once for all strips.
/// let (mut map, mut flags, mut words) = ([0; 96], [0; 48], [0; MAX_WORDS]);
/// let costs = Costs::default();
/// for ink in [0.0, 40.0] {
///     // Three blocks of 16 by 2: ink above paper, paper, paper above ink.
///     let samples = [[ink; 16], [255.0; 16], [255.0; 16], [255.0; 16], [255.0; 16], [ink; 16]];
///     let blocks = Blocks { sides: &[[16, 2]; 3], samples: samples.as_flattened(), bd: 8 };
///     let mut answers = search_strip_into(&blocks, 60.0, &costs, &mut map, &mut flags)?;
///     assert_eq!(answers.len(), 3);
///     let first = answers.next().unwrap()?;
///     assert_eq!(first.colors[..], [ink as u16, 255]);
///     assert_eq!(answers.next(), Some(Err(Refusal::ONE_LEVEL)));
///     let last = answers.next().unwrap()?;
///     assert_eq!(list_into(&last, &[], &mut words)?.words.len(), 9);
///     assert_ne!(first.map, last.map);
/// }
/// # Ok::<(), Refusal>(())
/// ```
pub fn search_strip_into<'b>(
    blocks: &Blocks<'_>,
    lambda: f32,
    costs: &Costs,
    map: &'b mut [u8],
    flags: &'b mut [u8],
) -> Result<Answers<'b>, Refusal> {
    let asked = AskedStrip {
        sides: blocks.sides.as_flattened(),
        samples: blocks.samples,
        bd: blocks.bd,
        lambda,
        costs: costs.as_table(),
    };
    let (mut fields, mut bits) = ([[0; 11]; MAX_STRIP], [[0.0; 2]; MAX_STRIP]);
    Refusal::check(archive::strip(asked, map, flags, &mut fields, &mut bits))?;
    let count = blocks.sides.len();
    let mut sides = [[0; 2]; MAX_STRIP];
    sides[..count].copy_from_slice(blocks.sides);
    Ok(Answers {
        places: 0..count,
        sides,
        bd: blocks.bd,
        fields,
        bits,
        map,
        flags,
    })
}

/// Goes through the answers of a strip, in the order of its blocks. A clone begins where this one
/// has come to.
///
/// ```
/// use palette_station::{search_strip_into, Blocks, Costs};
///
/// let samples = [10.0, 20.0].repeat(16);
/// let blocks = Blocks { sides: &[[16, 1]; 2], samples: &samples, bd: 8 };
/// let (mut map, mut flags) = ([0; 32], [0; 32]);
/// let answers = search_strip_into(&blocks, 0.0, &Costs::default(), &mut map, &mut flags)?;
/// assert_eq!(answers.clone().filter(Result::is_ok).count(), 2);
/// assert!(answers.flatten().all(|palette| palette.colors[..] == [10, 20]));
/// # Ok::<(), palette_station::Refusal>(())
/// ```
#[derive(Clone, Debug)]
pub struct Answers<'b> {
    /// Of the blocks whose answers are left.
    places: Range<usize>,
    sides: [[usize; 2]; MAX_STRIP],
    bd: u32,
    /// Number, n, eight colours and orientation.
    fields: [[u32; 11]; MAX_STRIP],
    /// Head and map bits.
    bits: [[f32; 2]; MAX_STRIP],
    /// From the next block's places on.
    map: &'b [u8],
    flags: &'b [u8],
}

impl<'b> Iterator for Answers<'b> {
    type Item = Result<PaletteView<'b>, Refusal>;

    fn next(&mut self) -> Option<Self::Item> {
        let place = self.places.next()?;
        let [width, height] = self.sides[place];
        let map = front(&mut self.map, width * height);
        let flags = front(&mut self.flags, width.max(height));
        let [number, fields @ ..] = self.fields[place];
        let bits = self.bits[place];
        let found = || PaletteView::from_fields((width, height), self.bd, fields, bits, map, flags);
        Some(Refusal::check(number).map(|()| found()))
    }

    fn size_hint(&self) -> (usize, Option<usize>) {
        self.places.size_hint()
    }
}

impl ExactSizeIterator for Answers<'_> {}

impl FusedIterator for Answers<'_> {}

/// Takes so many from the front.
pub(crate) fn front<'a, T>(rest: &mut &'a [T], count: usize) -> &'a [T] {
    let (front, behind) = rest.split_at(count);
    *rest = behind;
    front
}
