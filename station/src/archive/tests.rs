//! What the safe functions cannot ask: lengths that their types rule out, and the returned
//! fields after a refusal.

use super::{Asked, AskedStrip, Kept, Lent};

const SAMPLES: [f32; 16] = [
    10.0, 10.0, 10.0, 10.0, 10.0, 10.0, 10.0, 10.0, 20.0, 20.0, 20.0, 20.0, 20.0, 20.0, 20.0, 20.0,
];

fn asked(costs: &[f32]) -> Asked<'_> {
    Asked {
        samples: &SAMPLES,
        width: 16,
        height: 1,
        bd: 8,
        lambda: 0.0,
        costs,
    }
}

/// The number, with all that is returned, from buffers and fields filled beforehand.
fn searched(costs: &[f32]) -> (u32, [u8; 16], [u8; 16], [u32; 10], [f32; 2]) {
    let (mut map, mut flags) = ([0xee; 16], [0xee; 16]);
    let (mut found, mut bits) = ([77; 10], [7.5; 2]);
    let number = super::search(asked(costs), &mut map, &mut flags, &mut found, &mut bits);
    (number, map, flags, found, bits)
}

#[test]
fn the_worked_block() {
    let (number, map, flags, found, bits) = searched(&[0.0; 301]);
    assert_eq!(number, 0);
    assert_eq!(map, [0, 0, 0, 0, 0, 0, 0, 0, 1, 1, 1, 1, 1, 1, 1, 1]);
    assert_eq!((flags[0], &flags[1..]), (0, &[0xee; 15][..]));
    assert_eq!(found, [2, 10, 20, 0, 0, 0, 0, 0, 0, 0]);
    assert_eq!(
        (bits, super::estimate(bits[0], bits[1])),
        ([16.0, 1.0], 51.0)
    );
}

#[test]
fn costs_of_another_length_are_5() {
    for length in [0, 1, 300, 302, 1000] {
        let (number, map, flags, found, bits) = searched(&vec![0.0; length]);
        assert_eq!(number, 5, "{length} costs");
        assert_eq!((map, flags), ([0xee; 16], [0xee; 16]));
        assert_eq!((found, bits.map(f32::to_bits)), ([0; 10], [0; 2]));
    }
}

/// The worked block twice, and between them one of one level.
const STRIP: [f32; 48] = {
    let mut samples = [7.0; 48];
    let mut cell = 0;
    while cell < 16 {
        (samples[cell], samples[32 + cell]) = (SAMPLES[cell], SAMPLES[cell]);
        cell += 1;
    }
    samples
};

fn asked_strip(costs: &[f32]) -> AskedStrip<'_> {
    AskedStrip {
        sides: &[16, 1, 16, 1, 16, 1],
        samples: &STRIP,
        bd: 8,
        lambda: 0.0,
        costs,
    }
}

/// All that a strip returns, from buffers and fields filled beforehand.
struct Strip {
    number: u32,
    map: [u8; 49],
    flags: [u8; 49],
    answers: [[u32; 11]; 64],
    bits: [[f32; 2]; 64],
}

impl Strip {
    /// The bits of head and map bits, so that -0.0 is no 0.0.
    fn counted(&self) -> [[u32; 2]; 64] {
        self.bits.map(|bits| bits.map(f32::to_bits))
    }
}

fn strip(asked: AskedStrip<'_>, cells: usize) -> Strip {
    let (mut map, mut flags) = ([0xee; 49], [0xee; 49]);
    let (mut answers, mut bits) = ([[77; 11]; 64], [[7.5; 2]; 64]);
    let map_room = &mut map[..cells];
    let number = super::strip(asked, map_room, &mut flags, &mut answers, &mut bits);
    Strip {
        number,
        map,
        flags,
        answers,
        bits,
    }
}

#[test]
fn the_worked_block_twice_in_a_strip() {
    let strip = strip(asked_strip(&[0.0; 301]), 49);
    assert_eq!(strip.number, 0);
    let found = [0, 2, 10, 20, 0, 0, 0, 0, 0, 0, 0];
    let one_level = [9, 0, 0, 0, 0, 0, 0, 0, 0, 0, 0];
    assert_eq!(strip.answers[..3], [found, one_level, found]);
    assert_eq!(strip.bits[..3], [[16.0, 1.0], [0.0; 2], [16.0, 1.0]]);
    assert_eq!(strip.answers[3..], [[0; 11]; 61]);
    assert_eq!(strip.counted()[1], [0; 2]);
    assert_eq!(strip.counted()[3..], [[0; 2]; 61]);
    let map = [0, 0, 0, 0, 0, 0, 0, 0, 1, 1, 1, 1, 1, 1, 1, 1];
    assert_eq!((&strip.map[..16], &strip.map[32..48]), (&map[..], &map[..]));
    assert_eq!((&strip.map[16..32], strip.map[48]), (&[0xee; 16][..], 0xee));
    let mut flags = [0xee; 49];
    (flags[0], flags[32]) = (0, 0);
    assert_eq!(strip.flags, flags);
}

#[test]
fn costs_of_another_length_are_each_blocks_own_5() {
    for length in [0, 300, 302] {
        let strip = strip(asked_strip(&vec![0.0; length]), 49);
        assert_eq!(strip.number, 0, "{length} costs");
        let refused = [5, 0, 0, 0, 0, 0, 0, 0, 0, 0, 0];
        assert_eq!(strip.answers[..3], [refused; 3]);
        assert_eq!(strip.answers[3..], [[0; 11]; 61]);
        assert_eq!(strip.counted(), [[0; 2]; 64]);
        assert_eq!((strip.map, strip.flags), ([0xee; 49], [0xee; 49]));
    }
}

/// Half a pair of sides goes ahead of a side that is out of range.
#[test]
fn a_refused_strip_is_all_zero() {
    let costs = [0.0; 301];
    let whole = asked_strip(&costs);
    let sides = [16, 1, 16, 1, 16];
    let refused = [
        (
            19,
            49,
            AskedStrip {
                sides: &[],
                ..whole
            },
        ),
        (
            19,
            49,
            AskedStrip {
                sides: &[0],
                ..whole
            },
        ),
        (
            19,
            49,
            AskedStrip {
                sides: &sides,
                ..whole
            },
        ),
        (
            19,
            49,
            AskedStrip {
                sides: &[1; 129],
                ..whole
            },
        ),
        (
            19,
            49,
            AskedStrip {
                sides: &[1; 130],
                ..whole
            },
        ),
        (
            1,
            49,
            AskedStrip {
                sides: &[48, 1, 1, 0],
                ..whole
            },
        ),
        (
            3,
            49,
            AskedStrip {
                sides: &sides[..4],
                ..whole
            },
        ),
        (7, 47, whole),
    ];
    for (due, cells, asked) in refused {
        let strip = strip(asked, cells);
        assert_eq!(strip.number, due);
        assert_eq!(
            (strip.map, strip.flags),
            ([0xee; 49], [0xee; 49]),
            "number {due}"
        );
        assert_eq!(strip.answers, [[0; 11]; 64], "number {due}");
        assert_eq!(strip.counted(), [[0; 2]; 64], "number {due}");
    }
}

const EIGHT: [u16; 8] = [1, 2, 3, 4, 5, 6, 7, 8];

fn lent(n: usize) -> Lent<'static> {
    Lent {
        width: 2,
        height: 1,
        bd: 8,
        colors: &EIGHT,
        n,
        transposed: false,
        map: &[0, 1],
        flags: &[0],
    }
}

#[test]
fn more_than_eight_colors_are_11() {
    for n in [0, 1, 9, 10, usize::MAX] {
        let (mut words, mut listed, mut values) = ([0xdead; 40], [9; 2], [7.5; 4]);
        assert_eq!(super::list(lent(n), &[], &mut words, &mut listed), 11);
        assert_eq!((words, listed), ([0xdead; 40], [0; 2]));
        assert_eq!(super::pred(lent(n), &mut values), 11);
        assert_eq!(values, [7.5; 4]);
    }
    let (mut words, mut listed) = ([0xdead; 40], [9; 2]);
    assert_eq!(super::list(lent(8), &[], &mut words, &mut listed), 0);
}

/// The list of the worked block on its side: one column of 16, transposed.
fn turned() -> [u32; 22] {
    let mut words = [0x0500_0000; 22];
    words[..4].copy_from_slice(&[0x0300_0000, 0x0108_000a, 0x0102_0000, 0x0105_0009]);
    words[4..7].copy_from_slice(&[0x0101_0001, 0x0403_0000, 0x0202_0000]);
    words[14] = 0x0500_0001;
    words
}

fn kept<'a>(words: &'a [u32], cache: &'a [u16]) -> Kept<'a> {
    Kept {
        width: 1,
        height: 16,
        bd: 8,
        cache,
        words,
    }
}

/// The number, with all that is returned, from buffers and fields filled beforehand.
fn read(kept: Kept<'_>, cells: usize) -> (u32, [u8; 17], [u8; 17], [u32; 10]) {
    let (mut map, mut flags, mut read) = ([0xee; 17], [0xee; 17], [77; 10]);
    let number = super::read(kept, &mut map[..cells], &mut flags, &mut read);
    (number, map, flags, read)
}

#[test]
fn a_list_read_back() {
    let (number, map, flags, read) = read(kept(&turned(), &[]), 17);
    assert_eq!(number, 0);
    assert_eq!(map[..16], [0, 0, 0, 0, 0, 0, 0, 0, 1, 1, 1, 1, 1, 1, 1, 1]);
    assert_eq!((flags[0], &flags[1..], map[16]), (0, &[0xee; 16][..], 0xee));
    assert_eq!(read, [2, 10, 20, 0, 0, 0, 0, 0, 0, 1]);
}

#[test]
fn a_refused_list_is_all_zero() {
    let words = turned();
    let whole = kept(&words, &[]);
    let longer = [&words[..], &[0]].concat();
    // More bits for the step than it takes.
    let mut wider = words;
    (wider[2], wider[3]) = (0x0102_0001, 0x0106_0009);
    let refused = [
        (1, 17, Kept { width: 65, ..whole }),
        (2, 17, Kept { bd: 7, ..whole }),
        (13, 17, kept(&words, &[0; 65])),
        (7, 15, whole),
        (20, 17, kept(&words[..21], &[])),
        (21, 17, kept(&words[1..], &[])),
        (22, 17, kept(&longer, &[])),
        (23, 17, kept(&wider, &[])),
    ];
    for (due, cells, kept) in refused {
        let (number, map, flags, read) = read(kept, cells);
        assert_eq!(number, due);
        assert_eq!((map, flags), ([0xee; 17], [0xee; 17]), "number {due}");
        assert_eq!(read, [0; 10], "number {due}");
    }
}

#[test]
fn a_refused_context_is_all_zero() {
    let mut answer = [9; 17];
    assert_eq!(super::context(&[0, 2, 1], 2, 1, 1, 4, &mut answer), 0);
    assert_eq!(answer, [1, 1, 2, 0, 3, 0, 0, 0, 0, 2, 0, 1, 3, 0, 0, 0, 0]);
    assert_eq!(super::context(&[0, 2, 1], 2, 0, 0, 4, &mut answer), 18);
    assert_eq!(answer, [0; 17]);
}

/// All three neighbours of all n: places from n upward are 0, and where one is not below n all are.
#[test]
fn places_from_n_upward_are_zero() {
    for n in 2..=8 {
        for key in 0..9 * 9 * 9 {
            let map = [key / 81, key / 9 % 9, key % 9];
            let mut answer = [9; 17];
            let number = super::context(&map.map(|v| v as u8), 2, 1, 1, n, &mut answer);
            if map.iter().all(|&v| v < n) {
                assert_eq!(number, 0);
                assert!(answer[1 + n..9].iter().all(|&v| v == 0), "{map:?} {n}");
                assert!(answer[9 + n..].iter().all(|&v| v == 0), "{map:?} {n}");
            } else {
                assert_eq!((number, answer), (18, [0; 17]), "{map:?} {n}");
            }
        }
    }
}

/// A table whose rows all begin at 7 and fall by 1.
fn falling() -> [u16; 260] {
    let mut table = [0; 260];
    let (head, colors) = table.split_at_mut(15);
    head.copy_from_slice(&[7, 7, 6, 5, 4, 3, 2, 7, 6, 7, 6, 7, 6, 7, 6]);
    for (place, row) in colors.chunks_mut(7).enumerate() {
        let used = &mut row[..place / 5 + 1];
        used.copy_from_slice(&[7, 6, 5, 4, 3, 2, 1][..used.len()]);
    }
    table
}

#[test]
fn refused_costs_are_all_zero() {
    let table = falling();
    let mut costs = [-7.5; 301];
    assert_eq!(super::costs(&table, &mut costs), 0);
    // The second of two symbols has 7 of 32,768.
    assert_eq!(costs[..2], [0.0, 12.1875]);
    assert!(!costs.contains(&-7.5));
    let mut damaged = table;
    damaged[259] = 2;
    for (due, refused) in [(24, &table[1..]), (25, &damaged[..])] {
        costs.fill(-7.5);
        assert_eq!(super::costs(refused, &mut costs), due);
        assert_eq!(costs.map(f32::to_bits), [0; 301], "number {due}");
    }
}
