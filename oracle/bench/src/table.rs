//! The printed table: facts of the blocks, then ratios of times.

use crate::rounds::Times;
use std::collections::BTreeMap;
use std::time::Duration;

/// What came out of a sheet at one side and lambda.
#[derive(Default)]
pub struct Outcome {
    pub times: Times,
    /// Blocks by number.
    pub numbers: BTreeMap<u32, usize>,
    pub differences: usize,
}

/// The columns with their widths.
const HEAD: [(&str, usize); COLUMNS] = [
    ("sheet", 8),
    ("side", 5),
    ("lambda", 7),
    ("blocks", 7),
    ("found", 6),
    ("8", 5),
    ("9", 6),
    ("10", 6),
    ("search", 8),
    ("s/found", 8),
    ("s/refused", 10),
    ("list/ours", 10),
    ("list/orig", 10),
    ("read/list", 10),
    ("read/ours", 10),
    ("read/orig", 10),
    ("costs/ours", 11),
];

const COLUMNS: usize = 17;

pub fn print_head() {
    println!("found, 8, 9, 10: blocks with that answer");
    println!("search: our search / the original's, on the whole sheet, on blocks with a palette and on those without");
    println!("list/ours, list/orig: our listing / our search, / the original's search");
    println!("read/list, read/ours, read/orig: our reading / our listing, / our search, / the original's search");
    println!("costs/ours: our making of the 301 costs, once a block / our search");
    print_fields(HEAD.map(|(name, _)| name.to_string()));
}

pub fn print_line(name: &str, side: usize, lambda: f32, outcome: &Outcome) {
    let (times, numbers) = (&outcome.times, &outcome.numbers);
    let blocks: usize = numbers.values().sum();
    let with = |number: u32| numbers.get(&number).copied().unwrap_or(0);
    // Without a block a round's time is the clock's own.
    let ratio = |blocks: usize, one: Duration, other: Duration| match blocks {
        0 => "-".to_string(),
        _ => format!("{:.3}", one.as_secs_f64() / other.as_secs_f64()),
    };
    let (found, refused) = (with(0), blocks - with(0));
    print_fields([
        name.to_string(),
        side.to_string(),
        lambda.to_string(),
        blocks.to_string(),
        found.to_string(),
        with(8).to_string(),
        with(9).to_string(),
        with(10).to_string(),
        match blocks {
            0 => "-".to_string(),
            _ => format!("{:.3}", times.whole()),
        },
        ratio(found, times.ours, times.original),
        ratio(refused, times.ours_refused, times.original_refused),
        ratio(found, times.listing, times.ours),
        ratio(found, times.listing, times.original),
        ratio(found, times.reading, times.listing),
        ratio(found, times.reading, times.ours),
        ratio(found, times.reading, times.original),
        ratio(found, times.costing, times.ours),
    ]);
}

fn print_fields(fields: [String; COLUMNS]) {
    let widths = HEAD.map(|(_, width)| width);
    let pairs = fields.iter().zip(widths);
    let line: String = pairs
        .map(|(field, width)| format!("{field:>width$}"))
        .collect();
    println!("{line}");
}
