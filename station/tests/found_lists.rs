//! Found palettes are listed with any cache, and read back as they were.

mod common;

use common::decode::decode;
use common::{uncounted, Random};
use palette_station::{list, pred, read, replay, search, Coder, Costs, Palette, Refusal};
use std::thread;

/// Palettes of random blocks, with either orientation among them.
fn found(random: &mut Random, blocks: usize) -> Vec<Palette> {
    let one = |random: &mut Random| {
        let drawn = random.drawn();
        let lambda = [0.0, 0.5, 20.0, 60.0, 200.0][random.between(0, 4)];
        search(&drawn.block(), lambda, &Costs::default()).ok()
    };
    (0..blocks).filter_map(|_| one(random)).collect()
}

/// Caches of 0, 1 and 64 entries: none, a colour, and colours, some twice, between other values,
/// most of them above the top level.
fn caches(random: &mut Random, palette: &Palette) -> [Vec<u16>; 3] {
    let any = |random: &mut Random| match random.below(3) {
        0 => palette.colors[random.between(0, palette.colors.len() - 1)],
        _ => random.below(65_536) as u16,
    };
    let longest = (0..64).map(|_| any(random)).collect();
    [vec![], vec![palette.colors[1]], longest]
}

#[test]
fn found_palettes_come_back_from_their_lists() {
    let mut random = Random(2);
    let palettes = found(&mut random, 250);
    assert!(palettes.iter().any(|palette| palette.transposed));
    assert!(palettes.iter().any(|palette| palette.flags.contains(&2)));
    for palette in &palettes {
        let due = uncounted(palette);
        let (width, height, bd) = (palette.width, palette.height, palette.bd);
        for cache in caches(&mut random, palette) {
            let words = list(palette, &cache).expect("found, so listed").words;
            let decoded = decode(&words, (width, height), bd, &cache);
            assert_eq!(decoded.as_ref(), Ok(&due));
            let back = read(width, height, bd, &words, &cache).expect("listed, so read");
            assert_eq!(back, due);
            assert_eq!(pred(&back), pred(palette));
        }
        assert_eq!(list(palette, &[0; 65]), Err(Refusal::CACHE));
        assert_eq!(read(width, height, bd, &[], &[0; 65]), Err(Refusal::CACHE));
    }
}

/// Adds up the raw width, and counts the uniform calls that are sent a bit shorter than others of
/// the same n.
#[derive(Default)]
struct Raw {
    width: u32,
    shorter: u32,
}

impl Coder for Raw {
    fn bypass(&mut self, width: u32, _: u32) {
        self.width += width;
    }
    fn uniform(&mut self, n: u32, value: u32) {
        let digits = n.ilog2() + 1;
        let is_short = value < (1 << digits) - n;
        self.width += digits - u32::from(is_short);
        self.shorter += u32::from(is_short && !n.is_power_of_two());
    }
    fn size(&mut self, _: u32) {}
    fn row(&mut self, _: u32, _: u32) {}
    fn color(&mut self, _: u32, _: u32, _: u32) {}
}

#[test]
fn raw_width_is_that_of_the_calls() {
    let mut random = Random(3);
    let mut shorter = 0;
    for palette in found(&mut random, 50) {
        for cache in caches(&mut random, &palette) {
            let listing = list(&palette, &cache).unwrap();
            let mut raw = Raw::default();
            replay(&listing.words, &mut raw).unwrap();
            assert_eq!(raw.width, listing.raw_width);
            shorter += raw.shorter;
        }
    }
    assert!(shorter > 0);
}

#[test]
fn threads_get_equal_lists() {
    let listed = || {
        let palettes = found(&mut Random(5), 60);
        let lists = palettes.iter().map(|palette| list(palette, &[]).unwrap());
        lists.collect::<Vec<_>>()
    };
    let alone = listed();
    thread::scope(|scope| {
        let threads: Vec<_> = (0..4).map(|_| scope.spawn(listed)).collect();
        for thread in threads {
            assert!(thread.join().unwrap() == alone);
        }
    });
}
