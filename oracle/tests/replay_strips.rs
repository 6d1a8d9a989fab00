//! The strips of the crate `replay_strips` are of every kind, and its files hold the original's
//! answers.

use palette_oracle::generate::strips::{Sizes, StripDamage};
use palette_oracle::replay_strips::{bytes, lines, replayed_strips, ReplayedStrip};
use std::collections::BTreeSet;
use std::fs;

const SEED: u64 = 4;
const COUNT: usize = 160;
const FOLDER: &str = "../crates/replay_strips";
const MOST_BYTES: usize = 400_000;

fn all() -> Vec<ReplayedStrip> {
    replayed_strips(SEED, COUNT).collect()
}

fn input() -> Vec<u8> {
    all().iter().flat_map(bytes).collect()
}

#[test]
fn every_number_is_answered_in_few_bytes() {
    let all = all();
    let calls: BTreeSet<u32> = all.iter().map(|r| r.answer.number).collect();
    assert_eq!(calls, BTreeSet::from([0, 1, 3, 7, 19]));
    let blocks = all.iter().flat_map(|r| &r.answer.blocks);
    let numbers: BTreeSet<u32> = blocks.map(|block| block.number).collect();
    assert_eq!(numbers, BTreeSet::from([0, 2, 4, 5, 6, 8, 9, 10]));
    assert!(input().len() < MOST_BYTES);
}

#[test]
fn every_damage_is_done_alone() {
    let all = all();
    for &damage in StripDamage::ALL {
        let alone = |r: &&ReplayedStrip| r.kinds.damages == [damage];
        assert!(all.iter().filter(alone).count() >= 2, "{}", damage.name());
    }
    assert!(all.iter().any(|r| r.kinds.damages.len() == 2));
}

/// Strips on which an exchanged order of two tests would show.
#[test]
fn the_order_of_the_tests_shows() {
    let all = all();
    let some = |holds: &dyn Fn(&ReplayedStrip) -> bool| all.iter().any(holds);
    let number = |r: &ReplayedStrip| r.answer.number;
    let out = |side: &usize| !(1..=64).contains(side);
    let cells = |r: &ReplayedStrip| -> usize { r.request.pairs().map(|(w, h)| w * h).sum() };
    let flags = |r: &ReplayedStrip| -> usize { r.request.pairs().map(|(w, h)| w.max(h)).sum() };
    let short = |r: &ReplayedStrip| r.request.map_room < cells(r) || r.request.flag_room < flags(r);
    let other_count = |r: &ReplayedStrip| r.request.samples.len() != cells(r);
    assert!(some(&|r| number(r) == 19 && r.request.sides.iter().any(out)));
    assert!(some(&|r| number(r) == 1 && other_count(r)));
    assert!(some(&|r| number(r) == 1 && !other_count(r) && !short(r)));
    assert!(some(&|r| number(r) == 3 && short(r)));
    assert!(some(&|r| number(r) == 7 && r.request.bd > 12));
    for count in [0, 129, 130] {
        assert!(some(&|r| r.request.sides.len() == count), "{count}");
    }
}

/// Found blocks stand before and behind refused ones, and answers of each sort in long strips.
#[test]
fn the_answers_are_of_every_sort() {
    let all = all();
    let numbers = |r: &ReplayedStrip| -> Vec<u32> {
        r.answer.blocks.iter().map(|block| block.number).collect()
    };
    for number in [6, 8, 9, 10] {
        let among = |r: &ReplayedStrip| {
            let numbers = numbers(r);
            let at = numbers.iter().position(|&block| block == number);
            at.is_some_and(|at| numbers[..at].contains(&0) && numbers[at..].contains(&0))
        };
        assert!(all.iter().any(among), "{number}");
    }
    let long = |r: &&ReplayedStrip| r.answer.blocks.len() == 64;
    assert!(all.iter().filter(long).count() >= 4);
    let blocks: Vec<_> = all.iter().flat_map(|r| &r.answer.blocks).collect();
    for n in 2..=8 {
        for orientation in 0..=1 {
            let fields = (n, orientation);
            let met = blocks.iter().any(|b| (b.fields[0], b.fields[9]) == fields);
            assert!(met, "n = {n}");
        }
    }
    let sides = |r: &ReplayedStrip| r.request.pairs().collect::<Vec<_>>();
    for pair in [(1, 1), (1, 16), (16, 1), (64, 1), (1, 64)] {
        assert!(all.iter().any(|r| sides(r).contains(&pair)), "{pair:?}");
    }
    assert!(all.iter().any(|r| r.kinds.sizes == Sizes::OneGreat));
    assert!(all.iter().any(|r| r.kinds.sizes == Sizes::Close));
}

/// Costs are left out exactly where they are those of the strip before.
#[test]
fn left_out_costs_are_those_before() {
    let all = all();
    let bits =
        |r: &ReplayedStrip| -> Vec<u32> { r.request.costs.iter().map(|c| c.to_bits()).collect() };
    assert!(!all[0].same_costs);
    for pair in all.windows(2) {
        assert_eq!(pair[1].same_costs, bits(&pair[0]) == bits(&pair[1]));
    }
    let length = |r: &ReplayedStrip| {
        let costs = if r.same_costs {
            0
        } else {
            r.request.costs.len()
        };
        16 + 2 * r.request.sides.len() + 4 * (costs + r.request.samples.len())
    };
    assert!(all.iter().all(|r| bytes(r).len() == length(r)));
}

#[test]
fn the_crate_is_run_on_these() {
    let read = |name: &str| fs::read(format!("{FOLDER}/{name}")).expect(name);
    assert!(read("stdin") == input(), "stdin is not the generator's");
    let mut output = String::new();
    for (before, replayed) in all().iter().enumerate() {
        output.push_str(&format!("{}\n", lines(before + 1, replayed)));
    }
    assert!(
        read("stdout") == output.as_bytes(),
        "stdout is not the original's"
    );
}
