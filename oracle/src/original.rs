//! Safe calls into the original. They expect what document 01 accepts; `check` tells.

use crate::av2::entropy::RangeEncoder;
use crate::av2::palette;
use crate::lent::{self, Costs};

/// What `search` is asked: a block with its lambda and its lent costs.
#[derive(Clone, Debug)]
pub struct Block {
    pub w: usize,
    pub h: usize,
    pub bd: u32,
    pub lambda: f32,
    pub costs: Box<Costs>,
    pub samples: Vec<f32>,
}

/// What the listing is asked: colours and index map with one flag per line.
#[derive(Clone, Debug, PartialEq)]
pub struct Palette {
    pub w: usize,
    pub h: usize,
    pub bd: u32,
    pub colors: Vec<u16>,
    pub transposed: bool,
    pub flags: Vec<u8>,
    pub map: Vec<u8>,
}

/// What `search` answers.
#[derive(Clone, Debug)]
pub struct Found {
    pub palette: Palette,
    /// The bit estimate.
    pub bits: f32,
}

impl Found {
    /// n, eight colours and orientation, in ten places; all 0 for no palette.
    pub fn fields(found: Option<&Found>) -> [u32; 10] {
        let mut fields = [0; 10];
        if let Some(Found { palette, .. }) = found {
            fields[0] = palette.colors.len() as u32;
            for (field, &color) in fields[1..].iter_mut().zip(&palette.colors) {
                *field = u32::from(color);
            }
            fields[9] = u32::from(palette.transposed);
        }
        fields
    }
}

/// What `context` is asked.
#[derive(Clone, Debug, PartialEq)]
pub struct Corner {
    pub map: Vec<u8>,
    pub stride: usize,
    pub y: usize,
    pub x: usize,
    pub n: usize,
}

/// The best palette, or `None` where document 01 says 8, 9 or 10.
pub fn search(
    samples: &[f32],
    w: usize,
    h: usize,
    bd: u32,
    lambda: f32,
    costs: &Costs,
) -> Option<Found> {
    lent::lend(costs);
    palette::search(samples, w, h, bd, lambda).map(Found::from)
}

/// Fills the original's costs from a table ahead of a timed search, which then finds them filled
/// as it would in the original program. The smallest block that has a palette does it.
pub fn fill_costs(costs: &Costs) {
    let samples: [f32; 16] = std::array::from_fn(|at| (at % 2) as f32);
    search(&samples, 16, 1, 8, 0.0, costs);
}

/// The counted copy has a palette type of its own, of the same form.
macro_rules! found_from {
    ($palette:ty) => {
        impl From<$palette> for $crate::Found {
            fn from(p: $palette) -> Self {
                let bits = p.bits;
                let palette = $crate::Palette {
                    w: p.w,
                    h: p.h,
                    bd: p.bd,
                    colors: p.colors,
                    transposed: p.transposed,
                    flags: p.flags,
                    map: p.map,
                };
                $crate::Found { palette, bits }
            }
        }
    };
}

found_from!(palette::Palette);
pub(crate) use found_from;

/// The call list: size, colours against the cache, then the map.
pub fn list(palette: &Palette, cache: &[u16]) -> Vec<u32> {
    let p = to_original(palette);
    let mut recorder = RangeEncoder::default();
    palette::emit_colors(&mut recorder, &p, cache, palette.bd);
    palette::emit_map(&mut recorder, &p);
    recorder.words
}

/// The colours as f32, one per cell.
pub fn pred(palette: &Palette) -> Vec<f32> {
    to_original(palette).pred()
}

fn to_original(palette: &Palette) -> palette::Palette {
    palette::Palette {
        colors: palette.colors.clone(),
        w: palette.w,
        h: palette.h,
        map: palette.map.clone(),
        transposed: palette.transposed,
        flags: palette.flags.clone(),
        bd: palette.bd,
        bits: 0.0,
    }
}

/// The context of a cell and the order of its indices.
pub fn context(map: &[u8], stride: usize, y: usize, x: usize, n: usize) -> (usize, [u8; 8]) {
    palette::color_ctx(map, stride, y, x, n)
}

/// Sides in units of 4.
pub fn block_allowed(bw4: usize, bh4: usize) -> bool {
    palette::block_allowed(bw4, bh4)
}

/// Kind, first and second of a call word.
pub fn unpack(word: u32) -> (u32, u32, u32) {
    (word >> 24, word >> 16 & 0xff, word & 0xffff)
}

/// The call word of kind, first and second.
pub fn pack((kind, first, second): (u32, u32, u32)) -> u32 {
    (kind << 24) + (first << 16) + second
}

/// Raw width is document 01's, not the original's: the widths of the bypass calls, and that of the
/// uniform call, which document 02's L4 counts as it is sent and no longer as ceil_log2(n).
pub fn raw_width(words: &[u32]) -> u32 {
    let width = |&word: &u32| match unpack(word) {
        (1, width, _) => width,
        (2, n, value) => uniform_width(n, value),
        _ => 0,
    };
    words.iter().map(width).sum()
}

/// Codes of as many bits as n has binary digits would be 2^digits, more than the n that are needed.
/// So many values as are over, the smallest ones, take a bit less.
fn uniform_width(n: u32, value: u32) -> u32 {
    let digits = u32::BITS - n.leading_zeros();
    let over = (1 << digits) - n;
    digits - u32::from(value < over)
}
