//! The palettes of the crate `replay` reach every corner, and its files hold the original's answers.

use palette_oracle::check::top;
use palette_oracle::replay::{bytes, line, replayed, Replayed};
use std::collections::BTreeSet;
use std::fs;

const SEED: u64 = 4;
const COUNT: usize = 400;

fn all() -> Vec<Replayed> {
    replayed(SEED, COUNT).collect()
}

fn numbers(number: impl Fn(&Replayed) -> u32) -> BTreeSet<u32> {
    all().iter().map(number).collect()
}

#[test]
fn every_number_is_answered() {
    let listed = numbers(|r| r.listed.number);
    let predicted = numbers(|r| r.predicted.number);
    assert_eq!(listed, BTreeSet::from([0, 1, 2, 11, 12, 13, 14, 15, 16]));
    assert_eq!(predicted, BTreeSet::from([0, 1, 2, 7, 11, 12, 14, 15]));
}

#[test]
fn the_accepted_palettes_reach_every_corner() {
    let mut accepted = all();
    accepted.retain(|r| r.listed.number == 0);
    assert!(accepted.len() >= 320);
    let some = |holds: &dyn Fn(&Replayed) -> bool| accepted.iter().any(holds);
    for side in [1, 15, 16, 63, 64] {
        assert!(some(&|r| r.request.palette.w == side) && some(&|r| r.request.palette.h == side));
    }
    for (least, most) in [(2, 14), (17, 62)] {
        let between = |side: usize| (least..=most).contains(&side);
        assert!(some(
            &|r| between(r.request.palette.w) && between(r.request.palette.h)
        ));
    }
    for n in 2..=8 {
        assert!(some(&|r| r.request.palette.colors.len() == n), "n = {n}");
    }
    for bd in 8..=12 {
        assert!(some(&|r| r.request.palette.bd == bd), "bd = {bd}");
    }
    for flag in 0..=2 {
        assert!(some(&|r| r.request.palette.flags.contains(&flag)));
    }
    assert!(some(&|r| r.request.palette.transposed) && some(&|r| !r.request.palette.transposed));
}

#[test]
fn the_caches_and_rooms_are_of_every_sort() {
    let all = all();
    let some = |holds: &dyn Fn(&Replayed) -> bool| all.iter().any(holds);
    let accepted = |r: &Replayed| r.listed.number == 0;
    assert!(some(&|r| accepted(r) && r.request.cache.is_empty()));
    assert!(some(&|r| accepted(r) && r.request.cache.len() == 64));
    assert!(some(&|r| accepted(r) && has_repeat(&r.request.cache)));
    assert!(some(&|r| {
        let top = top(r.request.palette.bd.clamp(8, 12));
        accepted(r) && r.request.cache.iter().any(|&e| u32::from(e) > top)
    }));
    assert!(some(
        &|r| accepted(r) && r.listed.room == r.listed.words.len()
    ));
    assert!(some(
        &|r| accepted(r) && r.listed.room > r.listed.words.len()
    ));
}

fn has_repeat(cache: &[u16]) -> bool {
    cache.iter().collect::<BTreeSet<_>>().len() < cache.len()
}

#[test]
fn the_crate_is_run_on_these() {
    let read = |name: &str| fs::read(format!("../crates/replay/{name}")).expect(name);
    let input: Vec<u8> = all().iter().flat_map(bytes).collect();
    assert!(read("stdin") == input);
    let mut output = String::new();
    for (before, replayed) in all().iter().enumerate() {
        output.push_str(&format!("{}\n", line(before + 1, replayed)));
    }
    assert!(read("stdout") == output.as_bytes());
}
