//! The costs that are made here, beside another working of document 02's rule; which adapted
//! tables are refused; and where each cost stands.

mod common;

use common::rows::{cost, costs_of, drawn_table, rows, Row, DEFAULT_TABLE};
use common::{cases, Random};
use palette_station::{search, Costs, Refusal, ADAPTED, COSTS};
use std::fs;
use std::path::Path;

/// Bits, so that 0 and -0 differ.
fn bits(costs: &[f32]) -> Vec<u32> {
    costs.iter().map(|cost| cost.to_bits()).collect()
}

fn adapted(table: &[u16]) -> Costs {
    Costs::adapted(table).expect("the table is sound")
}

/// The default's rows, but for mode.
fn with_mode(number: u16) -> [u16; ADAPTED] {
    let mut table = DEFAULT_TABLE;
    table[0] = number;
    table
}

/// Both costs of mode. The first symbol has what the number leaves of 32,768.
fn mode(number: u16) -> [f32; 2] {
    let costs = adapted(&with_mode(number));
    [costs.mode(false), costs.mode(true)]
}

/// 32,768 itself is no probability in a table, but its neighbour costs as little.
#[test]
fn the_documents_values() {
    assert_eq!(mode(16_384), [1.0, 1.0]);
    assert_eq!(mode(32_767), [15.0, 0.0]);
    assert_eq!(mode(1), [0.0, 15.0]);
    assert_eq!([16_384, 1, 32_768].map(cost), [1.0, 15.0, 0.0]);
    for number in [0, 32_768, u16::MAX] {
        assert_eq!(
            Costs::adapted(&with_mode(number)),
            Err(Refusal::ADAPTED_ROWS)
        );
    }
}

#[test]
fn every_probability() {
    for p in 1..=32_767 {
        assert_eq!(mode(32_768 - p), [cost(p), cost(32_768 - p)], "{p}");
    }
}

#[test]
fn the_default_is_from_the_sources_rows() {
    let due = bits(&costs_of(&DEFAULT_TABLE));
    assert_eq!(bits(Costs::default().as_table()), due);
    assert_eq!(bits(adapted(&[]).as_table()), due);
    assert_eq!(bits(adapted(&DEFAULT_TABLE).as_table()), due);
}

/// The numbers of a table in the crate's source text.
fn numbers_of(source: &str, table: &str) -> Vec<u16> {
    let start = format!("static {table}:");
    let (_, rest) = source.split_once(&start).expect("the table is there");
    let (_, rest) = rest.split_once('=').expect("it has numbers");
    let (numbers, _) = rest.split_once(';').expect("it ends");
    let fields = numbers.split(|letter: char| !letter.is_ascii_digit());
    let fields = fields.filter(|field| !field.is_empty());
    fields.map(|field| field.parse().unwrap()).collect()
}

/// Different rows may have equal costs, so the numbers are compared too.
#[test]
fn default_rows_as_the_proved_crates() {
    let path = Path::new(env!("CARGO_MANIFEST_DIR")).join("../crates/tables/src/lib.rt");
    let Ok(source) = fs::read_to_string(&path) else {
        eprintln!("skipped: the source of the crate `tables` is not beside this package");
        return;
    };
    let tables = ["Y_SIZE_ICDF", "ROW_ICDF", "COLOR_ICDF"];
    let numbers = tables.map(|table| numbers_of(&source, table)).concat();
    assert_eq!(numbers, DEFAULT_TABLE[1..]);
}

#[test]
fn drawn_tables() {
    let mut random = Random(50);
    for _ in 0..cases(2_000) {
        let table = drawn_table(&mut random);
        let made = adapted(&table);
        assert_eq!(bits(made.as_table()), bits(&costs_of(&table)), "{table:?}");
    }
}

/// A changed row changes costs of its own, and no others.
#[test]
fn each_row_has_its_own_costs() {
    let mut random = Random(51);
    let default = Costs::default();
    let mut from = 0;
    for Row { at, used, room } in rows() {
        let mut table = DEFAULT_TABLE;
        table[at..at + used].copy_from_slice(&drawn_table(&mut random)[at..at + used]);
        let made = adapted(&table);
        let there = from..from + room + 1;
        assert_ne!(
            made.as_table()[there.clone()],
            default.as_table()[there.clone()]
        );
        for place in (0..COSTS).filter(|place| !there.contains(place)) {
            assert_eq!(made.as_table()[place], default.as_table()[place], "{place}");
        }
        from = there.end;
    }
    assert_eq!(from, COSTS);
}

/// What a place may not hold in this table, the others as they are.
fn damages(table: &[u16], row: Row, place: usize) -> Vec<u16> {
    if place >= row.used {
        return vec![1, 32_767, u16::MAX];
    }
    let before = match place {
        0 => 32_768,
        _ => table[row.at + place - 1],
    };
    let after = match place + 1 < row.used {
        true => table[row.at + place + 1],
        false => 0,
    };
    vec![before, before + 1, after, after.saturating_sub(1), u16::MAX]
}

fn each_damage_is_25(table: &[u16]) {
    for row in rows() {
        for place in 0..row.room {
            for number in damages(table, row, place) {
                let mut table = table.to_vec();
                table[row.at + place] = number;
                let refused = Costs::adapted(&table);
                let at = row.at + place;
                assert_eq!(refused, Err(Refusal::ADAPTED_ROWS), "{number} at {at}");
            }
        }
    }
}

#[test]
fn one_damaged_place_is_25() {
    each_damage_is_25(&DEFAULT_TABLE);
    let mut random = Random(52);
    (0..cases(10)).for_each(|_| each_damage_is_25(&drawn_table(&mut random)));
}

/// Rows one number apart, at the upper end and at the lower.
#[test]
fn the_steepest_tables_are_accepted() {
    let mut upper = [0; ADAPTED];
    let mut lower = [0; ADAPTED];
    for Row { at, used, .. } in rows() {
        for place in 0..used {
            upper[at + place] = 32_767 - place as u16;
            lower[at + place] = (used - place) as u16;
        }
    }
    for table in [upper, lower] {
        assert_eq!(bits(adapted(&table).as_table()), bits(&costs_of(&table)));
    }
}

/// 24 comes first, also where rows are damaged. Some lengths are 260 or 0 in fewer bits.
#[test]
fn other_lengths_are_24() {
    let repeated = DEFAULT_TABLE.repeat(260);
    let lengths = (1..=300).chain([512, 516, 520, 65_536, 65_796]);
    for length in lengths.filter(|&length| length != ADAPTED) {
        let refused = Costs::adapted(&repeated[..length]);
        assert_eq!(refused, Err(Refusal::ADAPTED_LENGTH), "{length}");
        let damaged = Costs::adapted(&vec![0; length]);
        assert_eq!(damaged, Err(Refusal::ADAPTED_LENGTH), "{length}");
    }
    assert_eq!(Costs::adapted(&repeated[..0]), Ok(Costs::default()));
    assert!(Costs::adapted(&repeated[..260]).is_ok());
}

#[test]
fn within_0_to_15_and_never_refused_by_5() {
    let mut random = Random(53);
    for _ in 0..cases(200) {
        let costs = adapted(&drawn_table(&mut random));
        assert!(costs
            .as_table()
            .iter()
            .all(|cost| (0.0..=15.0).contains(cost)));
        let drawn = random.drawn();
        let lambda = random.below(300) as f32;
        match search(&drawn.block(), lambda, &costs) {
            Ok(_) => {}
            Err(refusal) => assert!(refusal.means_no_palette(), "{refusal}"),
        }
    }
}

/// A table that holds its own places, in the documents' order.
#[test]
fn each_symbol_has_its_place() {
    let table = std::array::from_fn(|place| place as f32);
    let costs = Costs::from_table(table);
    let mut places = Vec::new();
    places.extend([false, true].map(|palette| costs.mode(palette)));
    places.extend((0..10).filter_map(|n| costs.size(n)));
    for context in 0..6 {
        places.extend((0..9).filter_map(|flag| costs.row(context, flag)));
    }
    let used: Vec<f32> = table[..21].to_vec();
    assert_eq!(places, used);
    for n in 0..10 {
        for context in 0..6 {
            for rank in 0..9 {
                let there = (2..=8).contains(&n) && context < 5 && rank < n;
                let due = there.then(|| (21 + (n - 2) * 40 + context * 8 + rank) as f32);
                assert_eq!(costs.color(n, context, rank), due);
            }
        }
    }
}
