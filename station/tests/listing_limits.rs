//! Listing and prediction at their limits: rooms, numbers and untouched memory.

mod common;

use common::{block, counting, halves, VALUE, WORD};
use palette_station::{
    list, list_into, pred, pred_into, search, word_room, Call, Colors, Costs, Palette, Refusal,
    MAX_WORDS,
};

const LISTED: [u32; 12] = [
    0x0300_0000,
    0x0108_0010,
    0x0102_0003,
    0x0108_00da,
    0x0101_0000,
    0x0403_0001,
    0x0202_0000,
    0x0401_0000,
    0x0500_0000,
    0x0504_0000,
    0x0504_0001,
    0x0502_0001,
];

#[test]
fn worked_list() {
    let listing = list(&Palette::example(), &[]).unwrap();
    assert_eq!(listing.words, LISTED);
    assert_eq!(listing.raw_width, 20);
}

/// The bypass calls of a list of these colours, 2 by 1, before the orientation bit.
fn literals(colors: &[u16], cache: &[u16]) -> Vec<(u32, u32)> {
    let mut palette = counting(2, 1, 2);
    palette.colors = Colors::new(colors).unwrap();
    let listing = list(&palette, cache).unwrap();
    let bypass = listing.calls().filter_map(|call| match call.unwrap() {
        Call::Bypass { width, value } => Some((width, value)),
        _ => None,
    });
    let mut calls: Vec<_> = bypass.collect();
    calls.pop();
    calls
}

#[test]
fn worked_colors() {
    assert_eq!(
        literals(&[16, 80, 235], &[]),
        [(8, 16), (2, 3), (8, 63), (8, 154)]
    );
    assert_eq!(
        literals(&[250, 253, 255], &[]),
        [(8, 250), (2, 0), (5, 2), (1, 1)]
    );
    assert_eq!(
        literals(&[253, 254, 255], &[]),
        [(8, 253), (2, 0), (5, 0), (0, 0)]
    );
    let bits = |entries: &[u32]| -> Vec<_> { entries.iter().map(|&bit| (1, bit)).collect() };
    assert_eq!(
        literals(&[10, 20, 30], &[20, 5, 30, 10, 40]),
        bits(&[1, 0, 1, 1])
    );
    assert_eq!(literals(&[10, 20], &[20, 20]), [(1, 1), (1, 0), (8, 10)]);
}

#[test]
fn one_orientation_bit_below_64() {
    let samples = halves(64 * 8);
    let orientation = |width| {
        let block = block(&samples[..width * 8], width, 8);
        let palette = search(&block, 0.0, &Costs::default()).unwrap();
        let listing = list(&palette, &[]).unwrap();
        let calls: Vec<Call> = listing.calls().map(Result::unwrap).collect();
        let first_row = calls
            .iter()
            .position(|call| matches!(call, Call::Row { .. }));
        matches!(calls[first_row.unwrap() - 1], Call::Bypass { width: 1, .. })
    };
    assert!(!orientation(64));
    assert!(orientation(63));
}

#[test]
fn word_rooms() {
    let palette = Palette::example();
    for room in [12, 13, 100] {
        let mut words = vec![WORD; room];
        let listing = list_into(&palette.view(), &[], &mut words).unwrap();
        assert_eq!((listing.words, listing.raw_width), (&LISTED[..], 20));
        assert!(words[12..].iter().all(|&word| word == WORD));
    }
    for room in [0, 1, 11] {
        let mut words = [WORD; 12];
        let refusal = list_into(&palette.view(), &[], &mut words[..room]);
        assert_eq!(refusal, Err(Refusal::WORD_ROOM));
        assert_eq!(words, [WORD; 12]);
    }
}

#[test]
fn the_longest_list() {
    let palette = counting(64, 64, 8);
    let listing = list(&palette, &[0; 64]).unwrap();
    assert_eq!(listing.words.len(), MAX_WORDS);
    for (width, height) in [(63, 63), (1, 63), (63, 1), (64, 1), (1, 64), (1, 1)] {
        let mut palette = counting(width, height, 8);
        let misses = [0; 64];
        assert!(list(&palette, &misses).unwrap().words.len() <= word_room(width, height, 64));
        if width.max(height) < 64 {
            palette.transposed = true;
            palette.flags = vec![0; width];
            assert!(list(&palette, &misses).unwrap().words.len() <= word_room(width, height, 64));
        }
    }
}

#[test]
fn value_rooms() {
    let palette = counting(5, 3, 4);
    let due: Vec<f32> = palette
        .map
        .iter()
        .map(|&i| f32::from(10 + 20 * u16::from(i)))
        .collect();
    assert_eq!(pred(&palette).unwrap(), due);
    for room in [15, 16, 80] {
        let mut values = vec![VALUE; room];
        assert_eq!(pred_into(&palette.view(), &mut values).unwrap(), due);
        assert!(values[15..].iter().all(|&value| value == VALUE));
    }
    for room in [0, 14] {
        let mut values = [VALUE; 15];
        assert_eq!(
            pred_into(&palette.view(), &mut values[..room]),
            Err(Refusal::ROOM)
        );
        assert_eq!(values, [VALUE; 15]);
    }
}

/// Asserts both functions' numbers (0 for none), and that a refusal wrote nothing.
fn numbers(palette: &Palette, cache: &[u16], listed: u32, predicted: u32) {
    let (mut words, mut values) = (vec![WORD; MAX_WORDS], vec![VALUE; 4096]);
    let listing = list_into(&palette.view(), cache, &mut words).map(drop);
    assert_eq!(listing.map_err(Refusal::number).err().unwrap_or(0), listed);
    let prediction = pred_into(&palette.view(), &mut values).map(drop);
    assert_eq!(
        prediction.map_err(Refusal::number).err().unwrap_or(0),
        predicted
    );
    assert!(listed == 0 || words.iter().all(|&word| word == WORD));
    assert!(predicted == 0 || values.iter().all(|&value| value == VALUE));
    assert_eq!(
        list(palette, cache)
            .map_err(Refusal::number)
            .err()
            .unwrap_or(0),
        listed
    );
    assert_eq!(
        pred(palette).map_err(Refusal::number).err().unwrap_or(0),
        predicted
    );
}

#[test]
fn tests_come_in_their_order() {
    // Everything is wrong; what is named is mended, and the next number shows.
    let mut palette = counting(64, 3, 4);
    palette.width = 65;
    palette.bd = 13;
    palette.colors = Colors::new(&[10, 10]).unwrap();
    palette.transposed = true;
    palette.map[7] = 4;
    palette.flags.push(0);
    numbers(&palette, &[0; 65], 1, 1);
    palette.width = 64;
    numbers(&palette, &[0; 65], 2, 2);
    palette.bd = 8;
    numbers(&palette, &[0; 65], 11, 11);
    palette.colors = Colors::new(&[10, 30, 50, 70]).unwrap();
    numbers(&palette, &[0; 65], 12, 12);
    palette.transposed = false;
    numbers(&palette, &[0; 65], 13, 14);
    numbers(&palette, &[0; 64], 14, 14);
    palette.flags.pop();
    numbers(&palette, &[0; 64], 15, 15);
    palette.map[7] = 3;
    numbers(&palette, &[0; 64], 0, 0);
    let mut small = [WORD; 9];
    let refusal = list_into(&palette.view(), &[], &mut small);
    assert_eq!(refusal, Err(Refusal::WORD_ROOM));
}

#[test]
fn colors_that_are_11() {
    let mut palette = Palette::example();
    for colors in [
        &[][..],
        &[10],
        &[10, 10],
        &[20, 10],
        &[10, 256],
        &[0, 1, 65_535],
    ] {
        palette.colors = Colors::new(colors).unwrap();
        numbers(&palette, &[], 11, 11);
    }
    palette.bd = 12;
    palette.colors = Colors::new(&[10, 4095]).unwrap();
    numbers(&palette, &[], 0, 0);
    assert_eq!(Colors::new(&[0; 9]), Err(Refusal::COLORS));
}

#[test]
fn maps_and_flags_that_are_14_or_15() {
    let changed = |change: fn(&mut Palette), number| {
        let mut palette = Palette::example();
        change(&mut palette);
        numbers(&palette, &[], number, number);
    };
    changed(|p| p.map.push(0), 14);
    changed(|p| p.map.truncate(7), 14);
    changed(|p| p.map.clear(), 14);
    changed(|p| p.flags.push(0), 14);
    changed(|p| p.flags.truncate(1), 14);
    // Four lines when transposed, but two flags.
    changed(|p| p.transposed = true, 14);
    changed(|p| p.map[7] = 2, 15);
    changed(|p| p.map[7] = 255, 15);
    changed(|p| p.flags[0] = 2, 15);
    changed(|p| p.flags[1] = 3, 15);
    changed(|p| p.flags[1] = 1, 15);
    changed(|p| p.flags[1] = 2, 15);
    changed(|p| p.map[3] = 1, 15);
}

/// A prediction made by hand with great sides allocates nothing for them.
#[test]
fn great_sides_are_only_refused() {
    let mut palette = Palette::example();
    (palette.width, palette.height) = (usize::MAX, usize::MAX);
    numbers(&palette, &[], 1, 1);
    assert_eq!(palette.index_at(usize::MAX - 1, 5), None);
    assert_eq!(palette.color_at(usize::MAX, 0), None);
}
