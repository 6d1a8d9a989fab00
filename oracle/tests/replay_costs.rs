//! The tables of the crate `replay_costs` are of every kind, and its files hold what is due.

use palette_oracle::generate::adapted::{TableDamage, TableKind};
use palette_oracle::made_costs::{meets, WHOLE};
use palette_oracle::replay_costs::{bytes, line, replayed_tables, steps, ReplayedTable};
use std::collections::BTreeSet;
use std::fs;

const SEED: u64 = 4;
const COUNT: usize = 300;
const FOLDER: &str = "../crates/replay_costs";
const MOST_BYTES: usize = 200_000;

fn all() -> Vec<ReplayedTable> {
    replayed_tables(SEED, COUNT).collect()
}

fn input() -> Vec<u8> {
    all().iter().flat_map(bytes).collect()
}

#[test]
fn every_number_is_answered_in_few_bytes() {
    let numbers: BTreeSet<u32> = all().iter().map(|r| r.made.number).collect();
    assert_eq!(numbers, BTreeSet::from([0, 24, 25]));
    assert!(input().len() < MOST_BYTES);
}

#[test]
fn every_kind_and_damage_is_met() {
    let all = all();
    for &kind in TableKind::ALL {
        let met = |r: &ReplayedTable| r.kinds.rows == kind && r.made.number == 0;
        assert!(all.iter().any(met), "{}", kind.name());
    }
    for &damage in TableDamage::ALL {
        let met = |r: &ReplayedTable| r.kinds.damages == [damage];
        assert!(all.iter().any(met), "{}", damage.name());
    }
}

/// The lengths that are right but for one number, or in eight bits.
#[test]
fn close_lengths_are_met() {
    let all = all();
    for length in [0, 1, 4, 245, 256, 259, 260, 261, 301, 512, 516, 520] {
        assert!(all.iter().any(|r| r.numbers.len() == length), "{length}");
    }
}

/// From a step's p up to the next one c is the cost: it is at the step, and the last p meets it.
#[test]
fn the_steps_tell_the_cost_of_every_p() {
    let text = steps();
    let number = |word: &str| word.parse::<u16>().expect("a whole number");
    let pair = |line: &str| line.split_once(' ').map(|(p, c)| (number(p), number(c)));
    let steps: Vec<(u16, u16)> = text.lines().map(|line| pair(line).expect("two")).collect();
    assert_eq!(steps[0], (1, 240));
    assert_eq!(steps[steps.len() - 1].1, 0);
    let ends = steps[1..].iter().map(|step| step.0).chain([WHOLE + 1]);
    for (&(p, c), end) in steps.iter().zip(ends) {
        let c = u32::from(c);
        assert!(p < end && !meets(p, c + 1) && meets(end - 1, c), "p = {p}");
    }
}

#[test]
fn the_crate_is_run_on_these() {
    let read = |name: &str| fs::read(format!("{FOLDER}/{name}")).expect(name);
    assert!(read("stdin") == input(), "stdin is not the generator's");
    let mut output = steps();
    for (before, replayed) in all().iter().enumerate() {
        output.push_str(&format!("{}\n", line(before + 1, replayed)));
    }
    assert!(
        read("stdout") == output.as_bytes(),
        "stdout is not the oracle's"
    );
}
