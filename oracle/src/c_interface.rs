//! The C interface. Callers hand in what document 01 accepts, and buffers as long as it says.

use crate::check::none_number;
use crate::lent::{Costs, COSTS};
use crate::original::{self, Found, Palette};
use std::slice;

/// Answers 0 with `map`, `flags`, `found` (n, eight colours, orientation) and `bits` written, or
/// 8, 9 or 10 with `found` and `bits` all 0 and the rest untouched.
///
/// # Safety
/// `samples` holds w x h, `costs` 301; `map` has room for w x h, `flags` for the longer side,
/// `found` for 10, `bits` for one.
#[no_mangle]
pub unsafe extern "C" fn rs_search(
    samples: *const f32,
    w: usize,
    h: usize,
    bd: u32,
    lambda: f32,
    costs: *const f32,
    map: *mut u8,
    flags: *mut u8,
    found: *mut u32,
    bits: *mut f32,
) -> u32 {
    let samples = slice::from_raw_parts(samples, w * h);
    let costs: &Costs = &*costs.cast::<[f32; COSTS]>();
    let fields = slice::from_raw_parts_mut(found, 10);
    let answer = original::search(samples, w, h, bd, lambda, costs);
    fields.copy_from_slice(&Found::fields(answer.as_ref()));
    *bits = answer.as_ref().map_or(0.0, |found| found.bits);
    let Some(Found { palette, .. }) = answer else {
        let number = none_number(samples, w, h);
        assert_ne!(
            number, 0,
            "the original declines a block that document 01 accepts"
        );
        return number;
    };
    copy_out(&palette.map, map);
    copy_out(&palette.flags, flags);
    0
}

unsafe fn copy_out<T: Copy>(from: &[T], to: *mut T) {
    slice::from_raw_parts_mut(to, from.len()).copy_from_slice(from);
}

/// Writes the call list, as far as `room` goes, and answers its whole length.
///
/// # Safety
/// `colors` holds 8, `map` w x h, `flags` one per line, `cache` holds `cached`; `words` has `room`.
#[no_mangle]
pub unsafe extern "C" fn rs_list(
    w: usize,
    h: usize,
    bd: u32,
    colors: *const u16,
    n: usize,
    transposed: bool,
    map: *const u8,
    flags: *const u8,
    cache: *const u16,
    cached: usize,
    words: *mut u32,
    room: usize,
) -> usize {
    let palette = palette_in(w, h, bd, colors, n, transposed, map, flags);
    let cache = if cached == 0 {
        &[]
    } else {
        slice::from_raw_parts(cache, cached)
    };
    let list = original::list(&palette, cache);
    if room > 0 {
        copy_out(&list[..list.len().min(room)], words);
    }
    list.len()
}

/// Writes w x h values and answers their number.
///
/// # Safety
/// As for `rs_list`; `values` has room for w x h.
#[no_mangle]
pub unsafe extern "C" fn rs_pred(
    w: usize,
    h: usize,
    bd: u32,
    colors: *const u16,
    n: usize,
    transposed: bool,
    map: *const u8,
    flags: *const u8,
    values: *mut f32,
) -> usize {
    let pred = original::pred(&palette_in(w, h, bd, colors, n, transposed, map, flags));
    copy_out(&pred, values);
    pred.len()
}

#[allow(clippy::too_many_arguments)]
unsafe fn palette_in(
    w: usize,
    h: usize,
    bd: u32,
    colors: *const u16,
    n: usize,
    transposed: bool,
    map: *const u8,
    flags: *const u8,
) -> Palette {
    let lines = if transposed { w } else { h };
    Palette {
        w,
        h,
        bd,
        colors: slice::from_raw_parts(colors, n).to_vec(),
        transposed,
        flags: slice::from_raw_parts(flags, lines).to_vec(),
        map: slice::from_raw_parts(map, w * h).to_vec(),
    }
}

/// Writes the context and then the eight places of the order.
///
/// # Safety
/// `map` holds `len`; `context` has room for 9.
#[no_mangle]
pub unsafe extern "C" fn rs_context(
    map: *const u8,
    len: usize,
    stride: usize,
    y: usize,
    x: usize,
    n: usize,
    context: *mut u32,
) {
    let map = slice::from_raw_parts(map, len);
    let (number, order) = original::context(map, stride, y, x, n);
    let fields = slice::from_raw_parts_mut(context, 9);
    fields[0] = number as u32;
    for (field, index) in fields[1..].iter_mut().zip(order) {
        *field = u32::from(index);
    }
}

/// Sides in units of 4.
#[no_mangle]
pub extern "C" fn rs_block_allowed(bw4: usize, bh4: usize) -> bool {
    original::block_allowed(bw4, bh4)
}
