//! The cells of the crate `replay_contexts` are of every kind, and its files hold what is due.

use palette_oracle::generate::contexts::{CornerDamage, CornerKind};
use palette_oracle::replay_contexts::{
    all_neighbours, bytes, line, replayed_corners, ReplayedCorner,
};
use std::collections::BTreeSet;
use std::fs;

const SEED: u64 = 4;
const COUNT: usize = 300;
const FOLDER: &str = "../crates/replay_contexts";
const MOST_BYTES: usize = 100_000;

fn all() -> Vec<ReplayedCorner> {
    replayed_corners(SEED, COUNT).collect()
}

fn input() -> Vec<u8> {
    all().iter().flat_map(bytes).collect()
}

#[test]
fn every_answer_is_given_in_few_bytes() {
    let numbers = |number: u32| all().into_iter().filter(move |r| r.answer.number == number);
    let contexts: BTreeSet<u32> = numbers(0).map(|r| r.answer.context).collect();
    assert!(contexts.into_iter().eq(0..=4));
    let counts: BTreeSet<usize> = numbers(0).map(|r| r.corner.n).collect();
    assert!(counts.into_iter().eq(2..=8));
    assert!(numbers(18).count() >= COUNT / 4);
    assert!(input().len() < MOST_BYTES);
}

#[test]
fn every_kind_and_damage_is_met() {
    let all = all();
    for &kind in CornerKind::ALL {
        let met = |r: &ReplayedCorner| r.kind == kind && r.answer.number == 0;
        assert!(all.iter().any(met), "{}", kind.name());
    }
    for &damage in CornerDamage::ALL {
        let met = |r: &ReplayedCorner| r.damage == Some(damage) && r.answer.number == 18;
        assert!(all.iter().any(met), "{}", damage.name());
    }
}

/// A line for each n and neighbour; where both have answers their hashes are all different.
#[test]
fn all_neighbours_differ() {
    let text = all_neighbours();
    assert_eq!(text.lines().count(), 11 * 9);
    let words = |line: &str| -> Vec<u64> {
        let words = line
            .split(' ')
            .map(|word| word.parse().expect("a whole number"));
        words.collect()
    };
    let lines: Vec<Vec<u64>> = text.lines().map(words).collect();
    let sound = |line: &&Vec<u64>| (2..=8).contains(&line[0]) && line[1] < line[0];
    let hashes: BTreeSet<u64> = lines.iter().filter(sound).map(|line| line[2]).collect();
    assert_eq!(hashes.len(), (2..=8).sum::<usize>());
}

#[test]
fn the_crate_is_run_on_these() {
    let read = |name: &str| fs::read(format!("{FOLDER}/{name}")).expect(name);
    assert!(read("stdin") == input(), "stdin is not the generator's");
    let mut output = all_neighbours();
    for (before, replayed) in all().iter().enumerate() {
        output.push_str(&format!("{}\n", line(before + 1, replayed)));
    }
    assert!(
        read("stdout") == output.as_bytes(),
        "stdout is not the oracle's"
    );
}
