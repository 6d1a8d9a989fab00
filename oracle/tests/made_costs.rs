//! The costs made are document 02's, and the adapted tables are of every kind and get the number
//! that is due.

use palette_oracle::generate::adapted::{table, TableDamage, TableKind, TableKinds};
use palette_oracle::generate::costs::logarithms;
use palette_oracle::made_costs::{
    default_numbers, made_costs, meets, rows, sixteenths, Row, NUMBERS, WHOLE,
};
use std::collections::BTreeSet;
use std::fs;

const COUNT: u64 = 20_000;

fn tables() -> impl Iterator<Item = (Vec<u16>, TableKinds)> {
    (0..COUNT).map(|index| table(6, index))
}

fn bits(adapted: &[u16]) -> Vec<u32> {
    let made = made_costs(adapted);
    made.costs.iter().map(|cost| cost.to_bits()).collect()
}

#[test]
fn document_02_has_these_values() {
    assert_eq!([1, 16_384, 32_768].map(sixteenths), [240, 16, 0]);
}

#[test]
fn each_cost_is_the_largest() {
    for p in 1..=WHOLE {
        let c = u32::from(sixteenths(p));
        assert!(meets(p, c) && !meets(p, c + 1), "p = {p}");
    }
}

#[test]
fn a_greater_probability_costs_no_more() {
    assert!((1..WHOLE).all(|p| sixteenths(p) >= sixteenths(p + 1)));
}

/// By another way: 240 - 16 · log2 p, rounded down. Only at powers of two is it whole.
#[test]
fn the_costs_are_logarithms() {
    for p in 1..=WHOLE {
        let exact = 240.0 - 16.0 * f64::from(p).log2();
        assert!((exact - exact.round()).abs() > 1e-9 || p.is_power_of_two());
        let c = if p.is_power_of_two() {
            exact.round()
        } else {
            exact.floor()
        };
        assert_eq!(f64::from(sixteenths(p)), c, "p = {p}");
    }
}

#[test]
fn the_rows_fill_both_layouts() {
    let rows = rows();
    assert_eq!(rows.len(), 1 + 1 + 4 + 7 * 5);
    assert_eq!(rows.iter().map(|row| row.room).sum::<usize>(), NUMBERS);
    assert_eq!(rows.iter().map(|row| row.room + 1).sum::<usize>(), 301);
    let unused: usize = rows.iter().map(|row| row.room - row.used).sum();
    assert_eq!(unused, 105);
    let last = Row {
        at: 253,
        used: 7,
        room: 7,
    };
    assert_eq!(rows.last(), Some(&last));
}

/// The costs that the original takes of its own tables find each place by another way.
#[test]
fn the_default_is_the_originals_to_a_sixteenth() {
    let made = made_costs(&[]);
    assert_eq!(made.number, 0);
    for (place, (ours, exact)) in made.costs.iter().zip(*logarithms()).enumerate() {
        assert!(
            *ours <= exact && exact < ours + 1.0 / 16.0,
            "place {place}: {ours} for {exact}"
        );
    }
    // Mode 2723: p is 30,045 and 2,723.
    assert_eq!(made.costs[..2], [2.0 / 16.0, 57.0 / 16.0]);
}

#[test]
fn the_default_lent_gives_the_default() {
    let lent = |kinds: &TableKinds| kinds.rows == TableKind::Default && kinds.damages.is_empty();
    let (numbers, _) = tables().find(|(_, kinds)| lent(kinds)).expect("one is");
    assert_eq!((numbers.len(), numbers[0]), (NUMBERS, 2723));
    assert_eq!(bits(&numbers), bits(&[]));
}

/// One number changed changes its own two symbols alone, if any.
#[test]
fn each_number_is_read_for_its_own_row() {
    let (numbers, _) = tables()
        .find(|(_, kinds)| kinds.rows == TableKind::Even && kinds.damages.is_empty())
        .expect("one is");
    let before = bits(&numbers);
    let mut first = 0;
    for Row { at, used, room } in rows() {
        for symbol in 0..used {
            let mut changed = numbers.clone();
            changed[at + symbol] -= 1000;
            let after = bits(&changed);
            let differing = (0..301).filter(|&k| before[k] != after[k]);
            let place = first + symbol;
            assert_eq!(differing.collect::<Vec<_>>(), [place, place + 1]);
        }
        first += room + 1;
    }
}

fn due(kinds: &TableKinds) -> u32 {
    let length = [TableDamage::Length, TableDamage::LengthRaised];
    if kinds.damages.iter().any(|damage| length.contains(damage)) {
        24
    } else if kinds.damages.is_empty() {
        0
    } else {
        25
    }
}

#[test]
fn each_damage_gets_its_number() {
    for (numbers, kinds) in tables() {
        let made = made_costs(&numbers);
        assert_eq!(made.number, due(&kinds), "{:?} {numbers:?}", kinds.damages);
        assert_eq!(numbers.is_empty(), kinds.rows == TableKind::None);
        let zeros = bits(&numbers).iter().all(|&bits| bits == 0);
        assert_eq!(zeros, made.number != 0);
    }
}

#[test]
fn every_kind_and_damage_is_met() {
    let kinds: Vec<TableKinds> = tables().map(|(_, kinds)| kinds).collect();
    for &kind in TableKind::ALL {
        let met = |k: &TableKinds| k.rows == kind && k.damages.is_empty();
        assert!(kinds.iter().any(met), "{}", kind.name());
    }
    for &damage in TableDamage::ALL {
        let met = |k: &TableKinds| k.damages == [damage];
        assert!(kinds.iter().any(met), "{}", damage.name());
    }
    assert!(kinds.iter().any(|k| k.damages.len() == 2));
}

/// Among the sound tables are all costs that there are, and both sides of each step.
#[test]
fn sound_tables_meet_every_step() {
    let mut met = BTreeSet::new();
    for (numbers, kinds) in tables() {
        if kinds.damages.is_empty() && !numbers.is_empty() {
            met.extend(rows().iter().flat_map(|row| chances(&numbers, row)));
        }
    }
    for p in 1..WHOLE {
        if sixteenths(p) != sixteenths(p + 1) {
            assert!(met.contains(&p) && (met.contains(&(p + 1)) || p + 1 == WHOLE));
        }
    }
}

fn chances(numbers: &[u16], row: &Row) -> Vec<u16> {
    let used = &numbers[row.at..][..row.used];
    let all = [&[WHOLE], used, &[0]].concat();
    all.windows(2).map(|pair| pair[0] - pair[1]).collect()
}

fn source(name: &str) -> String {
    let path = format!("../crates/{name}/src/lib.rt");
    fs::read_to_string(&path).unwrap_or_else(|e| panic!("{path}: {e}"))
}

/// The numbers of a source text between two of its words.
fn numbers_between(text: &str, start: &str, end: &str) -> Vec<u16> {
    let (_, behind) = text.split_once(start).expect(start);
    let (numbers, _) = behind.split_once(end).expect(end);
    let fields = numbers.split(|letter: char| !letter.is_ascii_digit());
    let fields = fields.filter(|field| !field.is_empty());
    fields.map(|field| field.parse().expect(field)).collect()
}

/// Nearly every default number can be changed a little with all costs as before, so the numbers
/// themselves are compared: those of the crates' sources with the original's.
#[test]
fn the_crates_have_the_originals_numbers() {
    let (tables, costs) = (source("tables"), source("costs"));
    let mode = numbers_between(&costs, "match k {\n        0 => ", ",");
    let size = numbers_between(&tables, "static Y_SIZE_ICDF: [u16; 6] =", ";");
    let row = numbers_between(&tables, "static ROW_ICDF: [[u16; 2]; 4] =", ";");
    let color = numbers_between(&tables, "static COLOR_ICDF: [[[u16; 7]; 5]; 7] =", ";");
    assert_eq!([mode, size, row, color].concat(), default_numbers());
}
