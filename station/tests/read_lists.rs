//! Lists of any words, read as the documents say; and each palette read from one list alone.

mod common;

use common::decode::decode;
use common::kept::Kept;
use common::{cases, word, Random};
use palette_station::{list, read, Colors, Palette, Refusal, MAX_WORDS};
use std::collections::BTreeMap;

/// Lines of a map with their flags: cells, constants and copies in any order.
fn lines(random: &mut Random, count: usize, length: usize, n: usize) -> (Vec<Vec<u8>>, Vec<u8>) {
    let (mut lines, mut flags) = (Vec::<Vec<u8>>::new(), Vec::new());
    for line in 0..count {
        let flag = random.between(0, if line == 0 { 1 } else { 2 });
        let index = random.between(0, n - 1) as u8;
        lines.push(match flag {
            0 => (0..length)
                .map(|_| random.between(0, n - 1) as u8)
                .collect(),
            1 => vec![index; length],
            _ => lines[line - 1].clone(),
        });
        flags.push(flag as u8);
    }
    (lines, flags)
}

/// An accepted palette of a small block, or of one line of 64.
fn palette(random: &mut Random) -> Palette {
    let small = (random.between(1, 6), random.between(1, 6));
    let (width, height) = [small, small, small, (64, 1), (1, 64)][random.between(0, 4)];
    let bd = random.between(8, 12) as u32;
    let n = random.between(2, 8);
    let mut colors = Vec::new();
    while colors.len() < n {
        colors.push(random.below(1 << bd) as u16);
        colors.sort_unstable();
        colors.dedup();
    }
    let transposed = width.max(height) < 64 && random.below(2) == 1;
    let (count, length) = if transposed {
        (width, height)
    } else {
        (height, width)
    };
    let (lines, flags) = lines(random, count, length, n);
    let cell = |y: usize, x: usize| if transposed { lines[x][y] } else { lines[y][x] };
    let cells = (0..width * height).map(|place| cell(place / width, place % width));
    Palette {
        width,
        height,
        bd,
        colors: Colors::new(&colors).expect("at most eight"),
        transposed,
        map: cells.collect(),
        flags,
        head: 0.0,
        map_bits: 0.0,
    }
}

/// Colours, some of them twice, other levels, and entries above the top level.
fn cache(random: &mut Random, palette: &Palette) -> Vec<u16> {
    let count = [0, 1, 2, 3, 9, 64][random.between(0, 5)];
    let entry = |_| match random.below(3) {
        0 => random.below(2 << palette.bd) as u16,
        _ => palette.colors[random.between(0, palette.colors.len() - 1)],
    };
    (0..count).map(entry).collect()
}

fn kept(random: &mut Random) -> Kept {
    let palette = palette(random);
    let cache = cache(random, &palette);
    let kept = Kept {
        sides: (palette.width, palette.height),
        bd: palette.bd,
        words: list(&palette, &cache).expect("it is accepted").words,
        cache,
    };
    assert_eq!(kept.read(), Ok(palette));
    kept
}

/// A word near the one that stands there, or any.
fn other_word(random: &mut Random, word: u32) -> u32 {
    match random.below(6) {
        0 => word ^ 1,
        1 => word.wrapping_add(1),
        2 => word.wrapping_sub(1),
        3 => word ^ 1 << random.below(32),
        4 => word & 0xffff_0000 | random.below(8) as u32,
        _ => random.below(1 << 32) as u32,
    }
}

fn change_words(random: &mut Random, words: &mut Vec<u32>) {
    let place = random.between(0, words.len() - 1);
    let another = random.between(0, words.len() - 1);
    match random.below(7) {
        0 => words.truncate(place),
        1 => drop(words.remove(place)),
        2 => words.insert(place, words[another]),
        3 => words.swap(place, another),
        4 => words.push(words[another]),
        _ => words[place] = other_word(random, words[place]),
    }
}

/// Another entry, or the same ones in another order or number.
fn change_cache(random: &mut Random, cache: &mut Vec<u16>) {
    if cache.is_empty() {
        return cache.push(random.below(300) as u16);
    }
    let place = random.between(0, cache.len() - 1);
    let another = random.between(0, cache.len() - 1);
    match random.below(4) {
        0 => drop(cache.remove(place)),
        1 => cache[place] = cache[another],
        2 => cache.swap(place, another),
        _ => cache[place] ^= 1 << random.below(16),
    }
}

/// The list with one or two changes, to what it is read with too.
fn changed(random: &mut Random, kept: &Kept) -> Kept {
    let mut kept = kept.clone();
    for _ in 0..random.between(1, 2) {
        match random.below(10) {
            0 => kept.sides = (kept.sides.1, kept.sides.0),
            1 => kept.bd = random.between(8, 12) as u32,
            2 | 3 => change_cache(random, &mut kept.cache),
            _ if kept.words.is_empty() => {}
            _ => change_words(random, &mut kept.words),
        }
    }
    kept
}

#[test]
fn changed_lists_are_read_as_the_documents_say() {
    let mut random = Random(21);
    let mut numbers = BTreeMap::new();
    for place in 0..cases(400) {
        let kept = kept(&mut random);
        for _ in 0..40 {
            let other = changed(&mut random, &kept);
            let due = decode(&other.words, other.sides, other.bd, &other.cache);
            let number = due.as_ref().err().copied().unwrap_or(0);
            assert_eq!(other.read(), due, "list {place}: {:x?}", other.words);
            *numbers.entry(number).or_insert(0) += 1;
        }
    }
    let seen: Vec<u32> = numbers.keys().copied().collect();
    assert_eq!(seen, [0, 20, 21, 22, 23]);
    assert!(numbers.values().all(|&count| count > 300), "{numbers:?}");
}

#[test]
fn any_words_at_all() {
    let mut random = Random(22);
    for _ in 0..cases(2000) {
        let mut other = kept(&mut random);
        let count = [1, 2, 20, 5000][random.between(0, 3)];
        let behind = random.between(0, other.words.len());
        other.words.truncate(behind);
        let words = (0..count).map(|_| random.below(1 << 32) as u32);
        other.words.extend(words);
        let due = decode(&other.words, other.sides, other.bd, &other.cache);
        assert_eq!(other.read(), due);
    }
}

/// Words for a tree of lists of two colours: all that a map of them needs, and a few literals.
fn branches() -> Vec<u32> {
    let mut words = vec![word(3, 0, 0), word(1, 8, 10), word(1, 8, 20), word(1, 5, 9)];
    words.extend((6..=8).map(|width| word(1, width, 9)));
    words.extend((0..4).map(|more| word(1, 2, more)));
    words.extend((0..2).flat_map(|bit| [word(1, 1, bit), word(2, 2, bit)]));
    let rows = (0..4).flat_map(|context| (0..3).map(move |flag| word(4, context, flag)));
    let ranks = (0..5).flat_map(|context| (0..2).map(move |rank| word(5, context, rank)));
    words.extend(rows.chain(ranks));
    words
}

/// Goes on with each list that is not at its end, word by word, and gives all that are read.
fn read_from_tree(width: usize, height: usize, cache: &[u16]) -> Vec<(Vec<u32>, Palette)> {
    let branches = branches();
    let (mut found, mut open) = (Vec::new(), vec![Vec::new()]);
    while let Some(words) = open.pop() {
        match read(width, height, 8, &words, cache) {
            Ok(palette) => found.push((words, palette)),
            Err(Refusal::LIST_END) if words.len() < MAX_WORDS => {
                let longer = |&word| [&words[..], &[word]].concat();
                open.extend(branches.iter().map(longer));
            }
            Err(Refusal::WORD | Refusal::NOT_LISTED) => {}
            Err(refusal) => panic!("{refusal} at {words:x?}"),
        }
    }
    found
}

/// All lists of a few words, by a tree of them: no palette is read from two lists, no list as two
/// palettes. With two colours given, document 02 counts 8 palettes of 1 by 1 and 26 of 2 by 1.
#[test]
fn every_palette_has_one_list() {
    let caches: [&[u16]; 5] = [
        &[],
        &[10],
        &[20, 20],
        &[300, 10, 20, 10],
        &[20, 256, 20, 30],
    ];
    for cache in caches {
        for (width, height, count) in [(1, 1, 8), (2, 1, 26), (1, 2, 26)] {
            let mut by_colors = BTreeMap::<Vec<u16>, Vec<Palette>>::new();
            for (words, palette) in read_from_tree(width, height, cache) {
                assert_eq!(list(&palette, cache).unwrap().words, words);
                let others = by_colors.entry(palette.colors.to_vec()).or_default();
                assert!(!others.contains(&palette), "two lists of {palette:?}");
                others.push(palette);
            }
            assert!(by_colors.contains_key(&vec![10, 20]), "{cache:?}");
            assert!(by_colors.values().all(|palettes| palettes.len() == count));
        }
    }
}

/// Two lists that are both read are equal exactly when the palettes are.
#[test]
fn two_lists_of_two_palettes() {
    let mut random = Random(23);
    let (mut equal, mut unequal) = (0, 0);
    for _ in 0..cases(300) {
        let one = kept(&mut random);
        let palette = one.read().unwrap();
        for _ in 0..40 {
            let mut other = one.clone();
            change_words(&mut random, &mut other.words);
            let Ok(another) = other.read() else { continue };
            assert_eq!(one.words == other.words, palette == another);
            *if palette == another {
                &mut equal
            } else {
                &mut unequal
            } += 1;
        }
    }
    assert!(equal > 30 && unequal > 300, "{equal} equal, {unequal} not");
}
