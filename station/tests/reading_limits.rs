//! Reading at its limits: rooms, numbers and untouched memory.

mod common;

use common::kept::{untouched, Kept};
use common::{counting, word};
use palette_station::{list, Palette, MAX_WORDS};

const TWO_COLORS: u32 = word(3, 0, 0);
const TAKEN: u32 = word(1, 1, 1);
const NOT_TAKEN: u32 = word(1, 1, 0);
/// A map of one line, constant, of index 0: no orientation is sent where a side is 64.
const CONSTANT: [u32; 2] = [word(4, 3, 1), word(2, 2, 0)];

/// The shortest list that there is: two colours of the cache, one line, one index.
const SHORTEST: [u32; 5] = [TWO_COLORS, TAKEN, TAKEN, CONSTANT[0], CONSTANT[1]];

fn line(words: &[u32], cache: &[u16]) -> Kept {
    at_8_bits((64, 1), words, cache)
}

fn at_8_bits(sides: (usize, usize), words: &[u32], cache: &[u16]) -> Kept {
    Kept {
        sides,
        bd: 8,
        words: words.to_vec(),
        cache: cache.to_vec(),
    }
}

fn at_bits(bd: u32, kept: &Kept) -> Kept {
    Kept { bd, ..kept.clone() }
}

fn with_sides(sides: (usize, usize), kept: &Kept) -> Kept {
    Kept {
        sides,
        ..kept.clone()
    }
}

#[test]
fn the_shortest_list() {
    let palette = line(&SHORTEST, &[0, 1]).read().unwrap();
    assert_eq!(palette.colors[..], [0, 1]);
    assert_eq!((palette.map, palette.flags), (vec![0; 64], vec![1]));
    assert!(!palette.transposed);
    assert_eq!([palette.head, palette.map_bits].map(f32::to_bits), [0; 2]);
}

#[test]
fn the_smallest_list_of_each_number() {
    let none = line(&[], &[]);
    for sides in [(0, 1), (1, 0), (65, 1), (1, 65), (usize::MAX, usize::MAX)] {
        assert_eq!(with_sides(sides, &none).number(), 1);
    }
    for bd in [0, 7, 13, 40, u32::MAX] {
        assert_eq!(at_bits(bd, &none).number(), 2);
    }
    assert_eq!(line(&[], &[0; 65]).number(), 13);
    assert_eq!(line(&[], &[0; 64]).number(), 20);
    assert_eq!(none.with_rooms(63, 64).0, Err(7));
    assert_eq!(none.with_rooms(64, 63).0, Err(7));
    assert_eq!(none.number(), 20);
    assert_eq!(line(&[0], &[]).number(), 21);
    let longer = [&SHORTEST[..], &[0]].concat();
    assert_eq!(line(&longer, &[0, 1]).number(), 22);
    assert_eq!(line(&SHORTEST, &[0, 0]).number(), 23);
    assert_eq!(line(&SHORTEST, &[0, 1]).number(), 0);
}

/// Sides and depths that would be right if they were cut to fewer bits.
#[test]
fn numbers_are_not_cut() {
    let words = list(&Palette::example(), &[]).unwrap().words;
    let kept = at_8_bits((4, 2), &words, &[]);
    assert_eq!(kept.number(), 0);
    for more in [64, 128, 1 << 8, 1 << 16, 1 << 32, 1 << 63] {
        assert_eq!(with_sides((4 + more, 2), &kept).number(), 1, "{more}");
        assert_eq!(with_sides((4, 2 + more), &kept).number(), 1, "{more}");
    }
    for more in [1 << 4, 1 << 8, 1 << 16, 1 << 31] {
        assert_eq!(at_bits(8 + more, &kept).number(), 2, "{more}");
    }
}

#[test]
fn tests_come_in_their_order() {
    // Everything is wrong; what is named is mended, and the next number shows.
    let mut words = [&SHORTEST[..], &[0]].concat();
    words[4] = 0;
    let mut kept = line(&words, &[0; 65]);
    (kept.sides, kept.bd) = ((65, 1), 13);
    assert_eq!(kept.with_rooms(0, 0).0, Err(1));
    kept.sides = (64, 1);
    assert_eq!(kept.with_rooms(0, 0).0, Err(2));
    kept.bd = 8;
    assert_eq!(kept.with_rooms(0, 0).0, Err(13));
    kept.cache = vec![0, 0];
    assert_eq!(kept.with_rooms(0, 0).0, Err(7));
    assert_eq!(kept.with_rooms(64, 64).0, Err(21));
    assert_eq!(line(&words[..4], &[0, 0]).number(), 20);
    words[4] = SHORTEST[4];
    assert_eq!(line(&words, &[0, 0]).number(), 22);
    words.pop();
    assert_eq!(line(&words, &[0, 0]).number(), 23);
    assert_eq!(line(&words, &[0, 1]).number(), 0);
}

/// A palette of either orientation: 5 by 3 has 3 lines or 5.
fn turned(transposed: bool) -> Palette {
    let mut palette = counting(5, 3, 4);
    palette.transposed = transposed;
    palette.flags = vec![0; palette.lines()];
    palette
}

#[test]
fn rooms_exact_and_longer() {
    for transposed in [false, true] {
        let palette = turned(transposed);
        let words = list(&palette, &[]).unwrap().words;
        let kept = at_8_bits((5, 3), &words, &[]);
        for more in [0, 1, 80] {
            let (read, [map, flags]) = kept.with_rooms(15 + more, 5 + more);
            assert_eq!(read.as_ref(), Ok(&palette));
            assert_eq!(map[..15], palette.map);
            assert!(untouched(&map[15..]));
            assert_eq!(flags[..palette.lines()], palette.flags);
            assert!(untouched(&flags[palette.lines()..]));
        }
        for (cells, lines) in [(14, 5), (15, 4), (15, 3), (0, 5), (15, 0), (0, 0)] {
            let (read, [map, flags]) = kept.with_rooms(cells, lines);
            assert_eq!(read, Err(7), "{cells} cells, {lines} flags");
            assert!(untouched(&map) && untouched(&flags));
        }
    }
}

/// The smallest block, with no room at all.
#[test]
fn empty_rooms() {
    let palette = counting(1, 1, 2);
    let words = list(&palette, &[]).unwrap().words;
    let kept = at_8_bits((1, 1), &words, &[]);
    assert_eq!(kept.with_rooms(1, 1).0, Ok(palette));
    for (cells, lines) in [(0, 1), (1, 0), (0, 0)] {
        let (read, [map, flags]) = kept.with_rooms(cells, lines);
        assert_eq!(read, Err(7), "{cells} cells, {lines} flags");
        assert!(untouched(&map) && untouched(&flags));
    }
}

#[test]
fn every_front_ends_too_early() {
    for palette in [turned(false), turned(true), Palette::example()] {
        for cache in [&[][..], &[30, 30, 256, 10], &[65_535; 64]] {
            let mut words = list(&palette, cache).unwrap().words;
            let sides = (palette.width, palette.height);
            let number = |words: &[u32]| at_8_bits(sides, words, cache).number();
            for end in 0..words.len() {
                assert_eq!(number(&words[..end]), 20, "{end} words");
            }
            assert_eq!(number(&words), 0);
            for more in [0, words[0], words[words.len() - 1], u32::MAX] {
                words.push(more);
                assert_eq!(number(&words), 22);
                words.pop();
            }
        }
    }
}

/// How many seconds are right at each place of the example's list, its words before standing.
const LIMITS: [u32; 12] = [7, 256, 4, 239, 2, 2, 2, 3, 2, 2, 2, 2];

#[test]
fn words_that_are_not_due() {
    let words = list(&Palette::example(), &[]).unwrap().words;
    let number = |words: &[u32]| at_8_bits((4, 2), words, &[]).number();
    for (place, limit) in LIMITS.into_iter().enumerate() {
        let least = words[place] & 0xffff_0000;
        let with = |word| number(&[&words[..place], &[word]].concat());
        // A list that ends behind a right word is 20, or whole.
        for second in [0, limit - 1] {
            assert_ne!(with(least + second), 21, "place {place}, second {second}");
        }
        for second in [limit, limit + 1, 0x8000, 0xffff] {
            assert_eq!(with(least + second), 21, "place {place}, second {second}");
        }
        for other in [1 << 16, 1 << 23, 1 << 24, 1 << 31] {
            assert_eq!(with(least ^ other), 21, "place {place}, {other:#x}");
        }
    }
}

/// Colours sent as literals, for the map above.
fn sent(bd: u32, colors: &[u32]) -> u32 {
    let words = [&[TWO_COLORS], colors, &CONSTANT].concat();
    at_bits(bd, &line(&words, &[])).number()
}

#[test]
fn levels_past_the_top() {
    for bd in 8..=12 {
        let top = (1 << bd) - 1;
        let colors = |first, step| [word(1, bd, first), word(1, 2, 0), word(1, bd - 3, step)];
        assert_eq!(sent(bd, &colors(top - 1, 0)), 0);
        assert_eq!(sent(bd, &colors(top - 1, 1)), 21);
        // No step is right behind the top level: the list has to end for another number.
        assert_eq!(sent(bd, &colors(top, 0)), 21);
        assert_eq!(sent(bd, &colors(top + 1, 0)), 21);
        let words = [&[TWO_COLORS], &colors(top, 0)[..2]].concat();
        assert_eq!(at_bits(bd, &line(&words, &[])).number(), 20);
    }
}

/// Document 01's colours 253, 254, 255: the last step has no bits.
#[test]
fn a_step_of_no_bits() {
    let number = |last| {
        let head = [word(3, 0, 1), word(1, 8, 253), word(1, 2, 0), word(1, 5, 0)];
        let words = [&head[..], &[last, word(4, 3, 1), word(2, 3, 0)]].concat();
        line(&words, &[]).number()
    };
    assert_eq!(number(word(1, 0, 0)), 0);
    assert_eq!(number(word(1, 0, 1)), 21);
    assert_eq!(number(word(1, 1, 0)), 21);
}

/// The number of two colours by these words, the first ones cache bits.
fn colors_number(bd: u32, cache: &[u16], colors: &[u32]) -> u32 {
    let mut words = [&[TWO_COLORS], colors, &CONSTANT].concat();
    let number = at_bits(bd, &line(&words, cache)).number();
    words.push(0);
    // Words left over come before what the listing would not write.
    assert_eq!(at_bits(bd, &line(&words, cache)).number(), 22);
    number
}

#[test]
fn lists_that_the_listing_would_not_write() {
    // A second 1 for a repeated entry; each 1 counts as a colour taken.
    assert_eq!(colors_number(8, &[5, 5], &[TAKEN, TAKEN]), 23);
    assert_eq!(colors_number(8, &[5, 6], &[TAKEN, TAKEN]), 0);
    // A colour taken and sent as well.
    assert_eq!(colors_number(8, &[5], &[TAKEN, word(1, 8, 5)]), 23);
    assert_eq!(colors_number(8, &[5], &[TAKEN, word(1, 8, 6)]), 0);
    // An entry above the top level.
    assert_eq!(colors_number(8, &[256, 5], &[TAKEN, TAKEN]), 23);
    assert_eq!(colors_number(9, &[256, 5], &[TAKEN, TAKEN]), 0);
    // An entry left, and its colour sent, or taken at the repeat.
    let beside_6 = |color| colors_number(8, &[5, 6], &[NOT_TAKEN, TAKEN, word(1, 8, color)]);
    assert_eq!((beside_6(5), beside_6(4)), (23, 0));
    let cache = [5, 5, 6];
    assert_eq!(colors_number(8, &cache, &[NOT_TAKEN, TAKEN, TAKEN]), 23);
    assert_eq!(colors_number(8, &cache, &[TAKEN, NOT_TAKEN, TAKEN]), 0);
    // More bits for the steps than the largest takes.
    let steps = |more| [word(1, 8, 10), word(1, 2, more), word(1, 5 + more, 9)];
    let numbers = [0, 1, 2, 3].map(|more| colors_number(8, &[], &steps(more)));
    assert_eq!(numbers, [0, 23, 23, 23]);
}

#[test]
fn the_longest_list() {
    let palette = counting(64, 64, 8);
    let cache = [0; 64];
    let mut words = list(&palette, &cache).unwrap().words;
    assert_eq!(words.len(), MAX_WORDS);
    assert_eq!(at_8_bits((64, 64), &words, &cache).read(), Ok(palette));
    words.extend([0; 100]);
    assert_eq!(at_8_bits((64, 64), &words, &cache).number(), 22);
}
