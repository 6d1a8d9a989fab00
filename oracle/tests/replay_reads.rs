//! The lists of the crate `replay_reads` are of every kind, and its files hold what is due.

use palette_oracle::generate::crafted::Craft;
use palette_oracle::generate::reads::{DamagedKinds, ReadDamage};
use palette_oracle::reading::{read, read_words, unlisted, ReadRequest, Unlisted};
use palette_oracle::replay_reads::{bytes, line, replayed_reads, ReplayedRead};
use palette_oracle::Palette;
use std::collections::BTreeSet;
use std::fs;

const SEED: u64 = 4;
const COUNT: usize = 400;
const FOLDER: &str = "../crates/replay_reads";
const MOST_BYTES: usize = 400_000;

fn all() -> Vec<ReplayedRead> {
    replayed_reads(SEED, COUNT).collect()
}

fn input() -> Vec<u8> {
    all().iter().flat_map(bytes).collect()
}

fn palettes() -> Vec<Palette> {
    all().into_iter().filter_map(|r| r.answer.ok()).collect()
}

#[test]
fn every_number_is_answered_in_few_bytes() {
    let number = |r: &ReplayedRead| *r.answer.as_ref().err().unwrap_or(&0);
    let numbers: BTreeSet<u32> = all().iter().map(number).collect();
    assert_eq!(numbers, BTreeSet::from([0, 1, 2, 7, 13, 20, 21, 22, 23]));
    assert!(input().len() < MOST_BYTES);
}

#[test]
fn the_palettes_read_are_of_every_sort() {
    let palettes = palettes();
    let some = |holds: &dyn Fn(&Palette) -> bool| palettes.iter().any(holds);
    for side in [1, 16, 63, 64] {
        assert!(some(&|p| p.w == side) && some(&|p| p.h == side), "{side}");
    }
    assert!(some(&|p| (p.w, p.h) == (64, 64)) && some(&|p| (p.w, p.h) == (1, 1)));
    for n in 2..=8 {
        for transposed in [false, true] {
            assert!(some(&|p| p.colors.len() == n && p.transposed == transposed));
        }
    }
    for bd in 8..=12 {
        assert!(some(&|p| p.bd == bd), "bd = {bd}");
    }
    for flag in 0..=2 {
        assert!(some(&|p| p.flags.contains(&flag)), "flag {flag}");
    }
}

#[test]
fn the_rooms_are_exact_or_larger() {
    let all = all();
    let accepted = |r: &&ReplayedRead| r.answer.is_ok();
    let spare = |r: &ReplayedRead| r.request.map_room - r.request.w * r.request.h;
    let spares: BTreeSet<usize> = all.iter().filter(accepted).map(spare).collect();
    assert_eq!(spares, BTreeSet::from([0, 1, 2, 5]));
}

#[test]
fn every_damage_craft_and_rule_is_met() {
    let all = all();
    let kinds: Vec<_> = all.iter().filter_map(|r| r.kinds.as_ref()).collect();
    for damage in ReadDamage::ALL {
        let done = kinds.iter().any(|k| k.damages.contains(damage));
        assert!(done, "{}", damage.name());
    }
    for &craft in Craft::ALL {
        assert!(kinds.iter().any(|k| k.craft == Some(craft)));
    }
    let broken = |r: &ReplayedRead| {
        let reading = read_words(&r.request).ok();
        reading.map_or(vec![], |reading| unlisted(&reading, &r.request.cache))
    };
    for rule in Unlisted::ALL {
        assert!(all.iter().any(|r| broken(r) == [*rule]), "{}", rule.name());
    }
}

/// A step past the top level, a list longer than any, and sides that are right in seven bits.
#[test]
fn rare_kinds_are_met() {
    let all = all();
    let some = |number, holds: &dyn Fn(&ReplayedRead) -> bool| {
        all.iter().any(|r| r.answer == Err(number) && holds(r))
    };
    let past_top = |k: &DamagedKinds| k.craft == Some(Craft::PastTop) && k.damages.is_empty();
    assert!(some(21, &|r| r.kinds.as_ref().is_some_and(past_top)));
    assert!(some(22, &|r| r.request.words.len() > 4234));
    let cut = |r: &ReplayedRead| ReadRequest {
        w: r.request.w % 128,
        h: r.request.h % 128,
        ..r.request.clone()
    };
    assert!(some(1, &|r| read(&cut(r)).is_ok()));
}

#[test]
fn the_crate_is_run_on_these() {
    let read = |name: &str| fs::read(format!("{FOLDER}/{name}")).expect(name);
    assert!(read("stdin") == input(), "stdin is not the generator's");
    let mut output = String::new();
    for (before, replayed) in all().iter().enumerate() {
        output.push_str(&format!("{}\n", line(before + 1, replayed)));
    }
    assert!(
        read("stdout") == output.as_bytes(),
        "stdout is not the reader's"
    );
}
