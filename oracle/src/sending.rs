//! The raw bits of a call list, as the original's own coder sends them.

use crate::av2::raw_coder::RangeEncoder;
use crate::original::unpack;

/// How many bits the coder sends for the bypass and uniform calls of a list, by its own telling.
pub fn sent_bits(words: &[u32]) -> u32 {
    // A coder tells differences alone: it begins below 0.
    let bits = sender(words).tell_bits() - RangeEncoder::new().tell_bits();
    assert_eq!(bits.fract(), 0.0, "part of a bit was sent");
    bits as u32
}

/// The bits themselves, in the order in which they are sent. The coder's bytes hold them from the
/// front, then a 1 and zeros; nothing comes between, since raw bits leave its range as it was.
pub fn sent_in_order(words: &[u32]) -> Vec<bool> {
    let bytes = sender(words).finish();
    let bit = |at: usize| bytes[at / 8] >> (7 - at % 8) & 1 == 1;
    (0..sent_bits(words) as usize).map(bit).collect()
}

/// A coder that was handed the calls. Size, row and colour are coded by adapted symbols, which are
/// no raw bits, so these calls are left out.
fn sender(words: &[u32]) -> RangeEncoder {
    let mut coder = RangeEncoder::new();
    for &word in words {
        match unpack(word) {
            (1, width, value) => coder.encode_bypass(value, width),
            (2, n, value) => coder.encode_uniform(value, n),
            _ => {}
        }
    }
    coder
}
