//! The blocks of the crate `replay_blocks` are of every kind, and its files hold the original's
//! answers.

use palette_oracle::generate::blocks::BlockKinds;
use palette_oracle::generate::costs::CostKind;
use palette_oracle::generate::lambdas::Lambda;
use palette_oracle::generate::layouts::Layout;
use palette_oracle::generate::levels::{Fraction, Spacing};
use palette_oracle::generate::searches::SearchDamage;
use palette_oracle::replay_blocks::{bytes, line, replayed_blocks, ReplayedBlock};
use std::collections::BTreeSet;
use std::fs;
use std::io::{self, Write};
use std::path::Path;

const SEED: u64 = 4;
const COUNT: usize = 640;
const FOLDER: &str = "../crates/replay_blocks";
const MOST_BYTES: usize = 1_500_000;

fn all() -> Vec<ReplayedBlock> {
    replayed_blocks(SEED, COUNT).collect()
}

fn input() -> Vec<u8> {
    all().iter().flat_map(bytes).collect()
}

#[test]
fn every_number_is_answered_in_few_bytes() {
    let numbers: BTreeSet<u32> = all().iter().map(|r| r.answer.number).collect();
    assert!(numbers.into_iter().eq(0..=10));
    assert!(input().len() < MOST_BYTES);
}

#[test]
fn the_found_blocks_are_of_every_kind() {
    let mut found = all();
    found.retain(|r| r.answer.number == 0);
    assert!(found.len() >= 400);
    let kinds: Vec<BlockKinds> = found.iter().filter_map(|r| r.kinds.block).collect();
    assert!(kinds.len() <= found.len() - 30, "close blocks");
    let some = |holds: &dyn Fn(&BlockKinds) -> bool| kinds.iter().any(holds);
    for &kind in Spacing::ALL {
        assert!(some(&|k| k.spacing == kind), "{}", kind.name());
    }
    for &kind in Layout::ALL {
        assert!(some(&|k| k.layout == kind), "{}", kind.name());
    }
    for &kind in Fraction::ALL {
        assert!(some(&|k| k.fraction == kind), "{}", kind.name());
    }
    for &kind in Lambda::ALL {
        assert!(some(&|k| k.lambda == kind), "{}", kind.name());
    }
    for &kind in CostKind::ALL {
        assert!(some(&|k| k.costs == kind), "{}", kind.name());
    }
}

#[test]
fn the_answers_are_of_every_sort() {
    let mut found = all();
    found.retain(|r| r.answer.number == 0);
    let some = |holds: &dyn Fn(&ReplayedBlock) -> bool| found.iter().any(holds);
    for n in 2..=8 {
        for orientation in 0..=1 {
            let fields = |r: &ReplayedBlock| (r.answer.fields[0], r.answer.fields[9]);
            assert!(some(&|r| fields(r) == (n, orientation)), "n = {n}");
        }
    }
    for flag in 0..=2 {
        assert!(some(&|r| r.answer.flags.contains(&flag)), "flag {flag}");
    }
    for side in [32, 64] {
        assert!(some(&|r| (r.request.w, r.request.h) == (side, side)));
    }
    for bd in 8..=12 {
        assert!(some(&|r| r.request.bd == bd), "bd = {bd}");
    }
    assert!(some(&|r| r.request.map_room == r.answer.map.len()));
    assert!(some(&|r| r.request.map_room > r.answer.map.len()));
}

#[test]
fn every_damage_is_done() {
    let all = all();
    for kind in SearchDamage::ALL {
        let done = all.iter().any(|r| r.kinds.damages.contains(kind));
        assert!(done, "{}", kind.name());
    }
    assert!(all.iter().any(|r| r.kinds.damages.len() == 2));
}

/// Costs are left out exactly where they are those of the block before.
#[test]
fn left_out_costs_are_those_before() {
    let all = all();
    let bits =
        |r: &ReplayedBlock| -> Vec<u32> { r.request.costs.iter().map(|c| c.to_bits()).collect() };
    assert!(!all[0].same_costs);
    for pair in all.windows(2) {
        assert_eq!(pair[1].same_costs, bits(&pair[0]) == bits(&pair[1]));
    }
    let length = |r: &ReplayedBlock| {
        let costs = if r.same_costs {
            0
        } else {
            r.request.costs.len()
        };
        15 + 4 * (costs + r.request.samples.len())
    };
    assert!(all.iter().all(|r| bytes(r).len() == length(r)));
}

#[test]
fn the_crate_is_run_on_these() {
    if !Path::new(FOLDER).exists() {
        // Not by `eprintln`, which is not shown for a test that passes.
        let message = format!("skipped: there is no folder {FOLDER} whose files to compare\n");
        io::stderr().write_all(message.as_bytes()).unwrap();
        return;
    }
    let read = |name: &str| fs::read(format!("{FOLDER}/{name}")).expect(name);
    assert!(read("stdin") == input(), "stdin is not the generator's");
    let mut output = String::new();
    for (before, replayed) in all().iter().enumerate() {
        output.push_str(&format!("{}\n", line(before + 1, replayed)));
    }
    assert!(
        read("stdout") == output.as_bytes(),
        "stdout is not the original's"
    );
}
