//! The original's `RangeEncoder` once more, this time as a coder: the functions that send and count
//! raw bits, as they stand in its `entropy.rs`, with the fields that these use.

pub(crate) struct RangeEncoder {
    low: u64,
    range: u32,
    count: i32,
    output: Vec<u16>,
    sink: bool,
}

// The start values in `new` are lines of the original too.
include!(concat!(env!("OUT_DIR"), "/raw_coder.rs"));
