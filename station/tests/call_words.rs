//! Call words: every word is a call or an error, never a panic.

mod common;

use common::Random;
use palette_station::{list, replay, Call, Calls, Coder, Palette, UnknownWord};

/// All words of kinds 0 to 6, with seconds past every range.
fn many_words() -> impl Iterator<Item = u32> {
    let seconds = (0..20).chain([255, 256, 4095, 4096, 0xffff]);
    let fields = move |high: u32| seconds.clone().map(move |second| high << 16 | second);
    (0..7 << 8).flat_map(fields)
}

#[test]
fn a_call_and_its_word_go_together() {
    let mut calls = 0;
    for word in many_words() {
        if let Some(call) = Call::from_word(word) {
            assert_eq!(call.to_word(), Some(word));
            calls += 1;
        }
    }
    assert!(calls > 300);
}

#[test]
fn ranges_of_document_01() {
    // Every first; seconds past every range, and the greatest.
    let seconds = || (0..5000).chain(0xff00..=0xffff);
    let count = |kind: u32| {
        let words = (0..256).flat_map(|first| seconds().map(move |second| first << 16 | second));
        let calls = words.filter_map(|rest| Call::from_word(kind << 24 | rest));
        calls.count()
    };
    assert_eq!(count(0), 0);
    // Widths 0 to 12 with 2^width values; n values for each n; seven sizes; four by three flags.
    assert_eq!(count(1), (1 << 13) - 1);
    assert_eq!(count(2), 2 + 3 + 4 + 5 + 6 + 7 + 8);
    assert_eq!(count(3), 7);
    assert_eq!(count(4), 12);
    assert_eq!(count(5), 5 * (2 + 3 + 4 + 5 + 6 + 7 + 8));
    assert_eq!(count(6), 0);
}

const MOST: u32 = u32::MAX;

#[test]
fn bypass_uniform_and_size_out_of_range() {
    for (width, value) in [(13, 0), (4, 16), (0, 1), (12, 4096), (MOST, MOST), (256, 0)] {
        assert_eq!(Call::Bypass { width, value }.to_word(), None);
    }
    for (n, value) in [(0, 0), (1, 0), (8, 8), (9, 0), (MOST, 0), (2, MOST)] {
        assert_eq!(Call::Uniform { n, value }.to_word(), None);
    }
    for value in [7, 0x1_0000, MOST] {
        assert_eq!(Call::Size { value }.to_word(), None);
    }
}

#[test]
fn flags_and_ranks_out_of_range() {
    for (context, flag) in [(4, 0), (0, 3), (256, 0), (MOST, MOST)] {
        assert_eq!(Call::Row { context, flag }.to_word(), None);
    }
    // Context 5 of two colours has the place of context 0 of three.
    let cells = [
        (1, 0, 0),
        (2, 5, 0),
        (2, 0, 2),
        (9, 0, 0),
        (MOST, MOST, MOST),
    ];
    for (n, context, rank) in cells {
        assert_eq!(Call::Color { n, context, rank }.to_word(), None);
    }
}

/// Writes down what it is handed.
#[derive(Default)]
struct Notes(Vec<Call>);

impl Coder for Notes {
    fn bypass(&mut self, width: u32, value: u32) {
        self.0.push(Call::Bypass { width, value });
    }
    fn uniform(&mut self, n: u32, value: u32) {
        self.0.push(Call::Uniform { n, value });
    }
    fn size(&mut self, value: u32) {
        self.0.push(Call::Size { value });
    }
    fn row(&mut self, context: u32, flag: u32) {
        self.0.push(Call::Row { context, flag });
    }
    fn color(&mut self, n: u32, context: u32, rank: u32) {
        self.0.push(Call::Color { n, context, rank });
    }
}

#[test]
fn a_coder_gets_every_call_in_order() {
    let listing = list(&Palette::example(), &[]).unwrap();
    let mut notes = Notes::default();
    replay(&listing.words, &mut notes).unwrap();
    let words: Vec<u32> = notes.0.iter().filter_map(|call| call.to_word()).collect();
    assert_eq!(words, listing.words);
    assert_eq!(listing.calls().len(), listing.words.len());
}

#[test]
fn one_unknown_word_and_nothing_is_coded() {
    let mut words = list(&Palette::example(), &[]).unwrap().words;
    words[11] = 0x0502_0002;
    let mut notes = Notes::default();
    let due = UnknownWord {
        place: 11,
        word: 0x0502_0002,
    };
    assert_eq!(replay(&words, &mut notes), Err(due));
    assert!(notes.0.is_empty());
}

#[test]
fn any_words_at_all() {
    let mut random = Random(4);
    let words: Vec<u32> = (0..100_000).map(|_| random.below(1 << 32) as u32).collect();
    assert_eq!(Calls::new(&words).count(), words.len());
    let unknown = Calls::new(&words).filter(Result::is_err).count();
    assert!(unknown > 90_000);
}
