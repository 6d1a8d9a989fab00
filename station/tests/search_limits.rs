//! The search at its limits: rooms, numbers and untouched memory.

mod common;

use common::{block, halves, Random, BYTE};
use palette_station::{block_allowed, search, search_into, Block, Costs, Refusal};

const FREE: Costs = Costs::from_table([0.0; 301]);

#[test]
fn sides_in_units_of_four() {
    for (bw4, bh4) in [(2, 2), (1, 4), (4, 1), (16, 16), (16, 1)] {
        assert!(block_allowed(bw4, bh4), "{bw4} by {bh4}");
    }
    for (bw4, bh4) in [(1, 1), (1, 3), (17, 1), (1, 17), (0, 16), (16, 0)] {
        assert!(!block_allowed(bw4, bh4), "{bw4} by {bh4}");
    }
    assert!(!block_allowed(usize::MAX, usize::MAX));
    assert!(!block_allowed(usize::MAX, 1));
}

#[test]
fn worked_block() {
    let samples = halves(16);
    let palette = search(&block(&samples, 16, 1), 0.0, &FREE).unwrap();
    assert_eq!(palette.colors[..], [10, 20]);
    assert!(!palette.transposed);
    assert_eq!(palette.flags, [0]);
    assert_eq!((palette.head, palette.map_bits), (16.0, 1.0));
    assert_eq!(palette.estimate(), 51.0);
    assert_eq!(palette.map[..9], [0, 0, 0, 0, 0, 0, 0, 0, 1]);
}

/// What a search with these rooms and a place more behind each says, and what the buffers hold.
fn with_rooms(block: &Block, cells: usize, lines: usize) -> (Option<Refusal>, Vec<u8>, Vec<u8>) {
    let (mut map, mut flags) = (vec![BYTE; cells + 1], vec![BYTE; lines + 1]);
    let answer = search_into(block, 0.0, &FREE, &mut map[..cells], &mut flags[..lines]);
    let refusal = answer.err();
    (refusal, map, flags)
}

fn untouched(buffer: &[u8]) -> bool {
    buffer.iter().all(|&byte| byte == BYTE)
}

#[test]
fn rooms_exact_and_longer() {
    let samples = halves(16 * 5);
    // One orientation each: the flags are fewer than their room in the first.
    for (width, height) in [(16, 5), (5, 16)] {
        let block = block(&samples, width, height);
        let found = search(&block, 0.0, &FREE).unwrap();
        for more in [0, 1, 40] {
            let (refusal, map, flags) = with_rooms(&block, 80 + more, 16 + more);
            assert_eq!(refusal, None);
            assert_eq!(map[..80], found.map);
            assert!(untouched(&map[80..]));
            assert_eq!(flags[..found.lines()], found.flags);
            assert!(untouched(&flags[found.lines()..]));
        }
    }
}

#[test]
fn rooms_too_small_are_7() {
    let samples = halves(16 * 5);
    for (width, height) in [(16, 5), (5, 16)] {
        let block = block(&samples, width, height);
        for (cells, lines) in [(79, 16), (80, 15), (0, 16), (80, 0), (0, 0)] {
            let (refusal, map, flags) = with_rooms(&block, cells, lines);
            assert_eq!(refusal, Some(Refusal::ROOM), "{cells} cells, {lines} flags");
            assert!(untouched(&map) && untouched(&flags));
        }
    }
}

/// Asserts the number, and that nothing was written.
fn refused(block: &Block, lambda: f32, costs: &Costs, number: u32) {
    let (mut map, mut flags) = ([BYTE; 4096], [BYTE; 64]);
    let refusal = search_into(block, lambda, costs, &mut map, &mut flags).unwrap_err();
    assert_eq!(refusal.number(), number);
    assert!(untouched(&map) && untouched(&flags));
    assert_eq!(search(block, lambda, costs).unwrap_err(), refusal);
}

fn five_high(samples: &[f32], width: usize, bd: u32) -> Block<'_> {
    Block {
        bd,
        ..block(samples, width, 5)
    }
}

#[test]
fn tests_come_in_their_order() {
    // Everything is wrong; what is named is mended, and the next number shows.
    let mut samples = vec![f32::NAN; 81];
    let mut costs = Costs::from_table([33.0; 301]);
    let mut lambda = f32::NAN;
    let (mut width, mut bd) = (0, 7);
    refused(&five_high(&samples, width, bd), lambda, &costs, 1);
    width = 16;
    refused(&five_high(&samples, width, bd), lambda, &costs, 2);
    bd = 8;
    refused(&five_high(&samples, width, bd), lambda, &costs, 3);
    samples.pop();
    refused(&five_high(&samples, width, bd), lambda, &costs, 4);
    lambda = 0.0;
    refused(&five_high(&samples, width, bd), lambda, &costs, 5);
    costs = FREE;
    refused(&five_high(&samples, width, bd), lambda, &costs, 6);
    samples = vec![1.0; 80];
    let (refusal, ..) = with_rooms(&five_high(&samples, width, bd), 79, 16);
    assert_eq!(refusal, Some(Refusal::ROOM));
    refused(&five_high(&samples, width, bd), lambda, &costs, 9);
    samples[79] = 2.0;
    assert!(search(&five_high(&samples, width, bd), lambda, &costs).is_ok());
}

#[test]
fn sides_and_depths() {
    let samples = halves(64 * 64);
    for (width, height) in [(0, 16), (16, 0), (65, 16), (16, 65), (usize::MAX, 2)] {
        refused(&block(&samples, width, height), 0.0, &FREE, 1);
    }
    assert!(search(&block(&samples, 64, 64), 0.0, &FREE).is_ok());
    for bd in [0, 7, 13, 32, u32::MAX] {
        let block = Block {
            bd,
            ..block(&samples, 64, 64)
        };
        refused(&block, 0.0, &FREE, 2);
    }
}

#[test]
fn floats_at_their_ends() {
    let mut samples = halves(16);
    let end = 1_048_576.0f32;
    for lambda in [f32::NAN, f32::INFINITY, end.next_up(), -f32::MIN_POSITIVE] {
        refused(&block(&samples, 16, 1), lambda, &FREE, 4);
    }
    for lambda in [0.0, -0.0, end] {
        assert!(search(&block(&samples, 16, 1), lambda, &FREE).is_ok());
    }
    for bd in 8..=12 {
        let top = ((1 << bd) - 1) as f32;
        for (sample, number) in [(top, 0), (-0.0, 0), (top.next_up(), 6), (-1e-30, 6)] {
            samples[3] = sample;
            let block = Block {
                bd,
                ..block(&samples, 16, 1)
            };
            match number {
                0 => assert!(search(&block, 0.0, &FREE).is_ok()),
                _ => refused(&block, 0.0, &FREE, number),
            }
        }
    }
}

/// Also the places of ranks that n colours do not have.
#[test]
fn every_cost_is_tested() {
    let samples = halves(16);
    for place in 0..301 {
        for (cost, number) in [(32.0, 0), (32f32.next_up(), 5), (-1.0, 5), (f32::NAN, 5)] {
            let mut table = [0.0; 301];
            table[place] = cost;
            let costs = Costs::from_table(table);
            match number {
                0 => assert!(search(&block(&samples, 16, 1), 0.0, &costs).is_ok()),
                _ => refused(&block(&samples, 16, 1), 0.0, &costs, number),
            }
        }
    }
}

#[test]
fn blocks_without_a_palette() {
    refused(&block(&halves(225), 15, 15), 0.0, &FREE, 8);
    refused(&block(&[7.0; 16], 16, 1), 0.0, &FREE, 9);
    // 10.0 and 10.4 are one level.
    let near: Vec<f32> = halves(16)
        .iter()
        .map(|s| 10.0 + (s - 10.0) * 0.04)
        .collect();
    refused(&block(&near, 16, 1), 0.0, &FREE, 9);
    let levels = |count| -> Vec<f32> { (0..64).map(|cell| (cell % count) as f32).collect() };
    assert!(search(&block(&levels(32), 64, 1), 0.0, &FREE).is_ok());
    refused(&block(&levels(33), 64, 1), 0.0, &FREE, 10);
}

#[test]
fn found_palettes_are_in_order() {
    let mut random = Random(1);
    let mut found = 0;
    for _ in 0..300 {
        let drawn = random.drawn();
        let lambda = random.between(0, 300) as f32;
        let Ok(palette) = search(&drawn.block(), lambda, &Costs::default()) else {
            continue;
        };
        found += 1;
        assert!((2..=8).contains(&palette.colors.len()));
        assert!(palette.colors.is_sorted_by(|a, b| a < b));
        assert_eq!(palette.map.len(), drawn.samples.len());
        assert_eq!(palette.flags.len(), palette.lines());
        assert!(!palette.transposed || drawn.width.max(drawn.height) < 64);
    }
    assert!(found > 200, "only {found} palettes found");
}
