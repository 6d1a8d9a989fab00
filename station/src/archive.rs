//! The archive's functions, each called in the default floating environment. All unsafe code of
//! the package is here and in `environment`.
//!
//! Each function of the archive is proved to end, to read only what is lent, and to write only
//! what its contract names. So each call below is sound as soon as every pointer and length comes
//! from one live slice, and the lent mutable ones do not overlap; Rust's references see to both.

use crate::environment::in_default;

/// A palette as the archive takes it.
#[derive(Clone, Copy)]
pub(crate) struct Lent<'a> {
    pub(crate) width: usize,
    pub(crate) height: usize,
    pub(crate) bd: u32,
    pub(crate) colors: &'a [u16; 8],
    pub(crate) n: usize,
    pub(crate) transposed: bool,
    pub(crate) map: &'a [u8],
    pub(crate) flags: &'a [u8],
}

/// A block and its prices as the archive takes them.
#[derive(Clone, Copy)]
pub(crate) struct Asked<'a> {
    pub(crate) samples: &'a [f32],
    pub(crate) width: usize,
    pub(crate) height: usize,
    pub(crate) bd: u32,
    pub(crate) lambda: f32,
    pub(crate) costs: &'a [f32],
}

/// Blocks of one depth and their prices as the archive takes them.
#[derive(Clone, Copy)]
pub(crate) struct AskedStrip<'a> {
    /// Width and height of each block, one pair after the other.
    pub(crate) sides: &'a [usize],
    pub(crate) samples: &'a [f32],
    pub(crate) bd: u32,
    pub(crate) lambda: f32,
    pub(crate) costs: &'a [f32],
}

/// A list, and what it was listed with, as the archive takes them.
#[derive(Clone, Copy)]
pub(crate) struct Kept<'a> {
    pub(crate) width: usize,
    pub(crate) height: usize,
    pub(crate) bd: u32,
    pub(crate) cache: &'a [u16],
    pub(crate) words: &'a [u32],
}

// As in include/palette.h, which a test holds to the archive's symbols.
extern "C" {
    fn palette_block_allowed(bw4: usize, bh4: usize) -> bool;

    fn palette_context(
        map: *const u8,
        cells: usize,
        stride: usize,
        y: usize,
        x: usize,
        n: usize,
        context: *mut [u32; 17],
    ) -> u32;

    fn palette_costs(adapted: *const u16, numbers: usize, costs: *mut [f32; 301]) -> u32;

    fn palette_search(
        samples: *const f32,
        count: usize,
        width: usize,
        height: usize,
        bd: u32,
        lambda: f32,
        costs: *const f32,
        entries: usize,
        map: *mut u8,
        map_room: usize,
        flags: *mut u8,
        flag_room: usize,
        found: *mut [u32; 10],
        bits: *mut [f32; 2],
    ) -> u32;

    fn palette_estimate(head: f32, map: f32) -> f32;

    fn palette_strip(
        sides: *const usize,
        numbers: usize,
        samples: *const f32,
        count: usize,
        bd: u32,
        lambda: f32,
        costs: *const f32,
        entries: usize,
        map: *mut u8,
        map_room: usize,
        flags: *mut u8,
        flag_room: usize,
        answers: *mut [[u32; 11]; 64],
        bits: *mut [[f32; 2]; 64],
    ) -> u32;

    fn palette_list(
        width: usize,
        height: usize,
        bd: u32,
        colors: *const [u16; 8],
        n: usize,
        transposed: bool,
        map: *const u8,
        cells: usize,
        flags: *const u8,
        lines: usize,
        cache: *const u16,
        cached: usize,
        words: *mut u32,
        room: usize,
        listed: *mut [u32; 2],
    ) -> u32;

    fn palette_read(
        width: usize,
        height: usize,
        bd: u32,
        cache: *const u16,
        cached: usize,
        words: *const u32,
        count: usize,
        map: *mut u8,
        map_room: usize,
        flags: *mut u8,
        flag_room: usize,
        read: *mut [u32; 10],
    ) -> u32;

    fn palette_pred(
        width: usize,
        height: usize,
        bd: u32,
        colors: *const [u16; 8],
        n: usize,
        transposed: bool,
        map: *const u8,
        cells: usize,
        flags: *const u8,
        lines: usize,
        values: *mut f32,
        room: usize,
    ) -> u32;
}

pub(crate) fn block_allowed(bw4: usize, bh4: usize) -> bool {
    // SAFETY: two numbers go in and one byte, 0 or 1, comes out; no memory is touched.
    in_default(|| unsafe { palette_block_allowed(bw4, bh4) })
}

/// The number; `answer` becomes the context, the order's eight places and the ranks' eight.
pub(crate) fn context(
    map: &[u8],
    stride: usize,
    y: usize,
    x: usize,
    n: usize,
    answer: &mut [u32; 17],
) -> u32 {
    // SAFETY: pointer and length are of one slice; `answer` is borrowed for this call alone.
    in_default(|| unsafe { palette_context(map.as_ptr(), map.len(), stride, y, x, n, answer) })
}

/// The number; `table` becomes the costs.
pub(crate) fn costs(adapted: &[u16], table: &mut [f32; 301]) -> u32 {
    // SAFETY: pointer and length are of one slice; `table` is borrowed for this call alone.
    in_default(|| unsafe { palette_costs(adapted.as_ptr(), adapted.len(), table) })
}

/// The number; `found` becomes n, eight colours and orientation, `bits` head and map bits.
pub(crate) fn search(
    asked: Asked<'_>,
    map: &mut [u8],
    flags: &mut [u8],
    found: &mut [u32; 10],
    bits: &mut [f32; 2],
) -> u32 {
    // SAFETY: each pointer and length is of one slice; the four mutable borrows do not overlap,
    // and the function writes within their lengths only.
    in_default(|| unsafe {
        palette_search(
            asked.samples.as_ptr(),
            asked.samples.len(),
            asked.width,
            asked.height,
            asked.bd,
            asked.lambda,
            asked.costs.as_ptr(),
            asked.costs.len(),
            map.as_mut_ptr(),
            map.len(),
            flags.as_mut_ptr(),
            flags.len(),
            found,
            bits,
        )
    })
}

/// (head + map bits) x 3.
pub(crate) fn estimate(head: f32, map_bits: f32) -> f32 {
    // SAFETY: it takes and gives numbers alone.
    in_default(|| unsafe { palette_estimate(head, map_bits) })
}

/// The number; of each block `answers` becomes its number, n, eight colours and orientation, `bits`
/// head and map bits.
pub(crate) fn strip(
    asked: AskedStrip<'_>,
    map: &mut [u8],
    flags: &mut [u8],
    answers: &mut [[u32; 11]; 64],
    bits: &mut [[f32; 2]; 64],
) -> u32 {
    // SAFETY: each pointer and length is of one slice; the four mutable borrows do not overlap,
    // and the function writes within their lengths only. 64 times eleven numbers in a row are the
    // 704 that it takes, and 64 pairs the 128.
    in_default(|| unsafe {
        palette_strip(
            asked.sides.as_ptr(),
            asked.sides.len(),
            asked.samples.as_ptr(),
            asked.samples.len(),
            asked.bd,
            asked.lambda,
            asked.costs.as_ptr(),
            asked.costs.len(),
            map.as_mut_ptr(),
            map.len(),
            flags.as_mut_ptr(),
            flags.len(),
            answers,
            bits,
        )
    })
}

/// Calls a function whose first ten arguments are a palette. A macro, since the ten cannot be handed
/// over as one value.
macro_rules! with_palette {
    ($function:ident, $palette:expr, $($more:expr),+) => {
        $function(
            $palette.width,
            $palette.height,
            $palette.bd,
            $palette.colors,
            $palette.n,
            $palette.transposed,
            $palette.map.as_ptr(),
            $palette.map.len(),
            $palette.flags.as_ptr(),
            $palette.flags.len(),
            $($more),+
        )
    };
}

/// The number; `listed` becomes the count of words and the raw width.
pub(crate) fn list(
    palette: Lent<'_>,
    cache: &[u16],
    words: &mut [u32],
    listed: &mut [u32; 2],
) -> u32 {
    // SAFETY: each pointer and length is of one slice; the two mutable borrows do not overlap,
    // and the function writes within their lengths only.
    in_default(|| unsafe {
        with_palette!(
            palette_list,
            palette,
            cache.as_ptr(),
            cache.len(),
            words.as_mut_ptr(),
            words.len(),
            listed
        )
    })
}

/// The number; `read` becomes n, eight colours and orientation.
pub(crate) fn read(kept: Kept<'_>, map: &mut [u8], flags: &mut [u8], read: &mut [u32; 10]) -> u32 {
    // SAFETY: each pointer and length is of one slice; the three mutable borrows do not overlap,
    // and the function writes within their lengths only.
    in_default(|| unsafe {
        palette_read(
            kept.width,
            kept.height,
            kept.bd,
            kept.cache.as_ptr(),
            kept.cache.len(),
            kept.words.as_ptr(),
            kept.words.len(),
            map.as_mut_ptr(),
            map.len(),
            flags.as_mut_ptr(),
            flags.len(),
            read,
        )
    })
}

/// The number; `values` becomes the colours of the cells.
pub(crate) fn pred(palette: Lent<'_>, values: &mut [f32]) -> u32 {
    // SAFETY: each pointer and length is of one slice; `values` is the only mutable borrow, and
    // the function writes within its length only.
    in_default(|| unsafe {
        with_palette!(palette_pred, palette, values.as_mut_ptr(), values.len())
    })
}

#[cfg(test)]
mod tests;
