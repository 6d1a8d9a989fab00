//! What the original's own coder sends for a list is as wide as the raw width says, and reads back.

use palette_oracle::answers::list_answer;
use palette_oracle::check::ceil_log2;
use palette_oracle::generate::requests::request;
use palette_oracle::{list, pack, raw_width, sent_bits, sent_in_order, unpack, Palette};
use std::collections::BTreeMap;

const BYPASS: u32 = 1;
const UNIFORM: u32 = 2;

fn uniform(n: u32, value: u32) -> [u32; 1] {
    [pack((UNIFORM, n, value))]
}

/// The lists that the original writes for the accepted ones of 6,000 requests.
fn lists() -> impl Iterator<Item = Vec<u32>> {
    let answers = (0..6000).map(|index| list_answer(&request(8, index).0));
    answers.filter(|a| a.number == 0).map(|a| a.words)
}

/// Reads bits from the front.
struct Reader {
    bits: std::vec::IntoIter<bool>,
}

impl Reader {
    fn new(words: &[u32]) -> Self {
        let bits = sent_in_order(words).into_iter();
        Reader { bits }
    }

    fn literal(&mut self, width: u32) -> u32 {
        let mut next = || u32::from(self.bits.next().expect("a bit is due"));
        (0..width).fold(0, |value, _| value * 2 + next())
    }

    /// As a decoder reads it: one bit more only where those before do not tell the value.
    fn uniform(&mut self, n: u32) -> u32 {
        let w = n.ilog2() + 1;
        let m = (1 << w) - n;
        let v = self.literal(w - 1);
        if v < m {
            return v;
        }
        (v << 1) - m + self.literal(1)
    }
}

fn reads_back(words: &[u32]) {
    let mut reader = Reader::new(words);
    for (at, &word) in words.iter().enumerate() {
        let (value, read) = match unpack(word) {
            (BYPASS, width, value) => (value, reader.literal(width)),
            (UNIFORM, n, value) => (value, reader.uniform(n)),
            _ => continue,
        };
        assert_eq!(read, value, "call {at} of {words:x?}");
    }
    assert_eq!(reader.bits.len(), 0, "bits left over of {words:x?}");
}

#[test]
fn a_uniform_call_sends_the_worked_widths() {
    let worked: [&[u32]; 7] = [
        &[1, 1],
        &[1, 2, 2],
        &[2, 2, 2, 2],
        &[2, 2, 2, 3, 3],
        &[2, 2, 3, 3, 3, 3],
        &[2, 3, 3, 3, 3, 3, 3],
        &[3, 3, 3, 3, 3, 3, 3, 3],
    ];
    for (n, expected) in (2..).zip(worked) {
        let widths = |width: fn(&[u32]) -> u32| -> Vec<u32> {
            (0..n).map(|value| width(&uniform(n, value))).collect()
        };
        assert_eq!(widths(sent_bits), expected, "sent for n = {n}");
        assert_eq!(widths(raw_width), expected, "raw width for n = {n}");
    }
}

#[test]
fn a_bypass_call_sends_its_width() {
    assert_eq!(sent_bits(&[pack((BYPASS, 0, 0))]), 0);
    for width in 1..=12 {
        let top = (1 << width) - 1;
        for value in [0, 1, top / 2, top / 3, top - 1, top] {
            let words = [pack((BYPASS, width, value))];
            assert_eq!(sent_bits(&words), width);
            reads_back(&words);
        }
    }
}

#[test]
fn the_other_calls_send_no_raw_bits() {
    let calls = [(3, 0, 6), (4, 3, 1), (4, 1, 2), (5, 34, 7), (5, 0, 1)];
    assert_eq!(sent_bits(&calls.map(pack)), 0);
    assert_eq!(sent_bits(&[]), 0);
}

/// The definitions compute these too (the crate `starred`).
#[test]
fn the_codes_of_three_and_of_five_values() {
    let digit = |&bit: &bool| if bit { '1' } else { '0' };
    let code = |words: &[u32]| -> String { sent_in_order(words).iter().map(digit).collect() };
    let codes = |n| -> Vec<String> { (0..n).map(|value| code(&uniform(n, value))).collect() };
    assert_eq!(codes(3), ["0", "10", "11"]);
    assert_eq!(codes(5), ["00", "01", "10", "110", "111"]);
    assert_eq!(code(&[pack((BYPASS, 8, 218))]), "11011010");
}

/// Every value of every n follows bits of any number, so that it lies across two bytes too.
#[test]
fn a_uniform_call_reads_back_wherever_it_stands() {
    for before in 1..=12 {
        for (n, value) in (2..=8).flat_map(|n| (0..n).map(move |value| (n, value))) {
            let ones = pack((BYPASS, before, (1 << before) - 1));
            let words = [ones, uniform(n, value)[0], pack((BYPASS, 9, 0x155))];
            assert_eq!(sent_bits(&words), raw_width(&words));
            reads_back(&words);
        }
    }
}

#[test]
fn a_list_sends_its_raw_width_and_reads_back() {
    let mut count = 0;
    for words in lists() {
        assert_eq!(sent_bits(&words), raw_width(&words), "{words:x?}");
        reads_back(&words);
        count += 1;
    }
    assert!(count > 5000);
}

/// Document 01 had ceil_log2(n), so the lists above can tell the two ways to count apart.
#[test]
fn lists_send_a_bit_less_for_3_5_6_and_7_colours_alone() {
    let mut less: BTreeMap<u32, [u32; 2]> = BTreeMap::new();
    for words in lists() {
        let mut uniforms = words.iter().filter(|&&word| unpack(word).0 == UNIFORM);
        let call = *uniforms.next().expect("a list has a first index");
        assert_eq!(uniforms.next(), None);
        let (_, n, _) = unpack(call);
        let by = ceil_log2(n) - sent_bits(&[call]);
        less.entry(n).or_default()[by as usize] += 1;
    }
    assert_eq!(less.len(), 7);
    for (n, [whole, shorter]) in less {
        assert!(whole > 0, "n = {n}");
        assert_eq!(shorter > 0, [3, 5, 6, 7].contains(&n), "n = {n}");
    }
}

/// Document 02's own words: with three colours index 0 takes 1 bit and index 2 takes 2. One cell
/// of a block of bd 8: literals of 8, 2, 5 and 5 bits, orientation, first index.
#[test]
fn a_cell_of_three_colours_is_a_bit_wider_at_its_third_index() {
    let cell = |index| Palette {
        w: 1,
        h: 1,
        bd: 8,
        colors: vec![10, 11, 12],
        transposed: false,
        flags: vec![1],
        map: vec![index],
    };
    for (index, width) in [(0, 22), (1, 23), (2, 23)] {
        let words = list(&cell(index), &[]);
        assert_eq!((raw_width(&words), sent_bits(&words)), (width, width));
    }
}
