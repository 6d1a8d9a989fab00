//! The lent costs reach the original: each at its place, and each table when its turn comes.

use palette_oracle::generate::blocks::{block, block_of, BlockKinds};
use palette_oracle::generate::costs::CostKind;
use palette_oracle::generate::random::Random;
use palette_oracle::{list, search, unpack, Block, Found, Palette};

fn answer(b: &Block) -> Option<(u32, Palette)> {
    let found = search(&b.samples, b.w, b.h, b.bd, b.lambda, &b.costs)?;
    Some((found.bits.to_bits(), found.palette))
}

#[test]
fn a_table_lent_between_others_changes_nothing() {
    let blocks: Vec<Block> = (0..60).map(|index| block(1, index).0).collect();
    let alone: Vec<_> = blocks
        .iter()
        .map(|b| std::thread::scope(|s| s.spawn(|| answer(b)).join().unwrap()))
        .collect();
    let together: Vec<_> = blocks.iter().map(answer).collect();
    let again: Vec<_> = blocks.iter().rev().map(answer).collect();
    assert_eq!(alone, together);
    assert!(alone.iter().eq(again.iter().rev()));
}

/// The cost of a call by document 01's layout: mode 2, size 7, row 12, colour 280.
fn price(costs: &[f32], word: u32) -> f32 {
    match unpack(word) {
        (1, width, _) => width as f32,
        (2, n, value) => {
            let long = n.ilog2() + 1;
            (if value < (1 << long) - n {
                long - 1
            } else {
                long
            }) as f32
        }
        (3, 0, size) => costs[2 + size as usize],
        (4, context, flag) => costs[9 + (3 * context + flag) as usize],
        (5, row, rank) => costs[21 + (8 * row + rank) as usize],
        other => panic!("no call word: {other:?}"),
    }
}

fn price_of_list(b: &Block, found: &Found) -> f32 {
    let words = list(&found.palette, &[]);
    let calls: f32 = words.iter().map(|&word| price(&b.costs[..], word)).sum();
    (b.costs[1] - b.costs[0] + calls) * 3.0
}

/// Costs that are multiples of a half sum without rounding, so the estimate is exactly three
/// times the price of the list without a cache: every used place is met and none is mistaken.
#[test]
fn the_estimate_prices_the_list() {
    let random = &mut Random::new(3, 0);
    let mut met = [false; 301];
    for index in 0..3000 {
        let (b, kinds) = block(3, index);
        let (w, h) = (b.w, b.h);
        let b = block_of(
            random,
            BlockKinds {
                costs: CostKind::Tied,
                ..kinds
            },
            w,
            h,
        );
        if let Some(found) = search(&b.samples, b.w, b.h, b.bd, b.lambda, &b.costs) {
            assert_eq!(found.bits, price_of_list(&b, &found), "case {index}");
            mark(&mut met, &list(&found.palette, &[]));
        }
    }
    // What no map can send: a copy as first line, and two colours among three that all differ.
    let unmet: Vec<usize> = (2..301)
        .filter(|&place| used(place) && !met[place])
        .collect();
    assert_eq!(unmet, [9 + 3 * 3 + 2, 21 + 8, 21 + 8 + 1]);
}

fn mark(met: &mut [bool; 301], words: &[u32]) {
    for &word in words {
        match unpack(word) {
            (3, _, size) => met[2 + size as usize] = true,
            (4, context, flag) => met[9 + (3 * context + flag) as usize] = true,
            (5, row, rank) => met[21 + (8 * row + rank) as usize] = true,
            _ => {}
        }
    }
}

fn used(place: usize) -> bool {
    place < 21 || (place - 21) % 8 < (place - 21) / 40 + 2
}
