//! The original's `RangeEncoder`, as a recorder: it writes document 01's call words in place of
//! coding to bytes, and hands out the lent costs in place of pricing by logarithm.

use crate::lent;

const BYPASS: u32 = 1;
const UNIFORM: u32 = 2;
const SIZE: u32 = 3;
const ROW: u32 = 4;
const COLOR: u32 = 5;

#[derive(Default)]
pub(crate) struct RangeEncoder {
    pub(crate) words: Vec<u32>,
}

impl RangeEncoder {
    pub(crate) fn symbol_bits(icdf: &[u16], symbol: usize, symbols: usize) -> f32 {
        lent::hand_out(icdf, symbol, symbols)
    }

    pub(crate) fn encode_bypass(&mut self, value: u32, width: u32) {
        self.record(BYPASS, width, value);
    }

    pub(crate) fn encode_uniform(&mut self, value: u32, n: u32) {
        self.record(UNIFORM, n, value);
    }

    pub(crate) fn sym_palette_y_size(&mut self, n: usize) {
        self.record(SIZE, 0, n as u32 - 2);
    }

    pub(crate) fn sym_palette_row(&mut self, context: usize, flag: usize) {
        self.record(ROW, context as u32, flag as u32);
    }

    pub(crate) fn sym_palette_y_color(&mut self, n: usize, context: usize, rank: usize) {
        self.record(COLOR, (n as u32 - 2) * 5 + context as u32, rank as u32);
    }

    fn record(&mut self, kind: u32, first: u32, second: u32) {
        debug_assert!(first < 1 << 8 && second < 1 << 16);
        self.words.push((kind << 24) + (first << 16) + second);
    }
}
