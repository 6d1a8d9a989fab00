//! Answers of the original, where the oracle is built: PALETTE_ORACLE names its program, else it
//! is looked for beside this package.

mod common;

use palette_station::{list, pred, search, Block, Colors, Costs, Palette, Refusal};
use std::env;
use std::path::{Path, PathBuf};
use std::process::Command;

const SEED: &str = "20";
const COUNT: &str = "1500";

fn oracle() -> Option<PathBuf> {
    let beside = Path::new(env!("CARGO_MANIFEST_DIR")).join("../oracle/target/release/oracle");
    match env::var_os("PALETTE_ORACLE") {
        Some(named) => Some(PathBuf::from(named)),
        None => Some(beside).filter(|program| program.exists()),
    }
}

/// What the oracle prints of a kind; none, with a message, without the oracle.
fn printed(kind: &str) -> Option<Vec<u8>> {
    let Some(program) = oracle() else {
        eprintln!("skipped: no oracle (set PALETTE_ORACLE, or build it in ../oracle)");
        return None;
    };
    let run = Command::new(&program).args([kind, SEED, COUNT]).output();
    let run = run.unwrap_or_else(|error| panic!("{}: {error}", program.display()));
    assert!(run.status.success(), "the oracle failed: {:?}", run.status);
    Some(run.stdout)
}

/// Cases of a kind with their names and answers.
fn cases(kind: &str) -> Vec<[String; 3]> {
    let Some(printed) = printed(kind) else {
        return Vec::new();
    };
    let text = String::from_utf8(printed).expect("the oracle prints text");
    let lines: Vec<String> = text.lines().map(str::to_string).collect();
    let (cases, rest) = lines.as_chunks::<3>();
    assert!(rest.is_empty() && cases.len().to_string() == COUNT);
    cases.to_vec()
}

/// Entries of so many hexadecimal digits; `-` is none.
fn unpacked<T: TryFrom<u32>>(field: &str, digits: usize) -> Vec<T> {
    let entries = field.trim_matches('-').as_bytes().chunks(digits);
    let entry = |chunk: &[u8]| {
        let digits = std::str::from_utf8(chunk).expect("ASCII");
        let entry = u32::from_str_radix(digits, 16).expect("hexadecimal");
        T::try_from(entry).ok().expect("fits")
    };
    entries.map(entry).collect()
}

fn floats(field: &str) -> Vec<f32> {
    unpacked(field, 8).into_iter().map(f32::from_bits).collect()
}

/// An array as the oracle prints it.
fn packed<T: std::fmt::LowerHex>(entries: &[T], digits: usize) -> String {
    if entries.is_empty() {
        return "-".to_string();
    }
    let digit = |entry: &T| format!("{entry:0digits$x}");
    entries.iter().map(digit).collect()
}

fn refused(refusal: Refusal) -> String {
    format!("= {}", refusal.number())
}

fn searched(case: &str) -> String {
    let fields: Vec<&str> = case.split(' ').collect();
    let [_, width, height, bd, lambda, costs, samples] = fields[..] else {
        panic!("not a search: {case}");
    };
    let samples = floats(samples);
    let block = Block {
        samples: &samples,
        width: width.parse().unwrap(),
        height: height.parse().unwrap(),
        bd: bd.parse().unwrap(),
    };
    let costs = Costs::from_slice(&floats(costs)).unwrap();
    let found = search(&block, floats(lambda)[0], &costs);
    found.map_or_else(refused, |palette| found_answer(&palette))
}

fn found_answer(palette: &Palette) -> String {
    format!(
        "= 0 {} {} {:08x} {} {}",
        packed(&palette.colors, 4),
        u8::from(palette.transposed),
        palette.estimate().to_bits(),
        packed(&palette.flags, 2),
        packed(&palette.map, 2)
    )
}

fn listed(case: &str) -> String {
    let fields: Vec<&str> = case.split(' ').collect();
    let [_, width, height, bd, orientation, colors, flags, map, cache] = fields[..] else {
        panic!("not a list: {case}");
    };
    let palette = Palette {
        width: width.parse().unwrap(),
        height: height.parse().unwrap(),
        bd: bd.parse().unwrap(),
        colors: Colors::new(&unpacked(colors, 4)).unwrap(),
        transposed: orientation == "1",
        map: unpacked(map, 2),
        flags: unpacked(flags, 2),
        head: 0.0,
        map_bits: 0.0,
    };
    let cache: Vec<u16> = unpacked(cache, 4);
    let listing = list(&palette, &cache);
    listing.map_or_else(refused, |listing| {
        let values = pred(&palette).expect("what is listed is predicted");
        let values: Vec<u32> = values.iter().map(|value| value.to_bits()).collect();
        let (count, words) = (listing.words.len(), packed(&listing.words, 8));
        let raw_width = listing.raw_width;
        format!("= 0 {count} {raw_width} {words} {}", packed(&values, 8))
    })
}

#[test]
fn blocks_as_the_original() {
    for [names, case, answer] in cases("blocks") {
        assert!(searched(&case) == answer, "another answer for {names}");
    }
}

#[test]
fn lists_as_the_original() {
    for [names, case, answer] in cases("lists") {
        assert!(listed(&case) == answer, "another answer for {names}");
    }
}

/// Adapted tables, each as its length and its numbers, two bytes each.
fn tables(bytes: &[u8]) -> Vec<Vec<u16>> {
    let (pairs, rest) = bytes.as_chunks::<2>();
    assert!(rest.is_empty());
    let mut numbers = pairs.iter().map(|&pair| u16::from_le_bytes(pair));
    let mut tables = Vec::new();
    while let Some(length) = numbers.next() {
        let table: Vec<u16> = numbers.by_ref().take(length.into()).collect();
        assert_eq!(table.len(), usize::from(length));
        tables.push(table);
    }
    tables
}

/// The lines that are due for so many tables, and ahead of them the steps of the costs.
fn due_lines(text: Vec<u8>, tables: usize) -> (Vec<[u32; 2]>, Vec<[u32; 3]>) {
    let text = String::from_utf8(text).expect("the oracle prints text");
    let lines: Vec<Vec<u32>> = text.lines().map(decimals).collect();
    let (steps, answers) = lines.split_at(lines.len() - tables);
    let steps = steps.iter().map(|step| step[..].try_into().unwrap());
    let answers = answers.iter().map(|answer| answer[..].try_into().unwrap());
    (steps.collect(), answers.collect())
}

fn decimals(line: &str) -> Vec<u32> {
    line.split(' ')
        .map(|field| field.parse().unwrap())
        .collect()
}

/// As the oracle hashes the costs' bits. It hashes zeros after a refusal, which gives 0.
fn hash_of(costs: &Costs) -> u32 {
    let hash = costs.as_table().iter().fold(0, |hash, cost| {
        (hash * 65_599 + u64::from(cost.to_bits())) % 4_294_967_291
    });
    hash as u32
}

/// The oracle has them from big whole numbers, by document 02's inequality.
#[test]
fn costs_as_the_oracles() {
    let Some(input) = printed("costs-input") else {
        return;
    };
    let tables = tables(&input);
    let output = printed("costs-output").expect("it was there");
    let (_, answers) = due_lines(output, tables.len());
    let mut defaults = 0;
    for (table, [place, number, due]) in tables.iter().zip(answers) {
        let made = Costs::adapted(table);
        let answer = match &made {
            Ok(costs) => (0, hash_of(costs)),
            Err(refusal) => (refusal.number(), 0),
        };
        assert_eq!(answer, (number, due), "table {place}");
        if table.is_empty() {
            assert_eq!(hash_of(&Costs::default()), due);
            defaults += 1;
        }
    }
    assert!(defaults > 0);
}

/// Each step is a probability and its cost in sixteenths, up to the next one.
#[test]
fn every_probability_as_the_oracles() {
    let Some(output) = printed("costs-output") else {
        return;
    };
    let count = COUNT.parse().expect("a number");
    let (steps, _) = due_lines(output, count);
    let mut steps = steps.into_iter().peekable();
    let mut due = 0;
    let mut table = common::rows::DEFAULT_TABLE;
    for p in 1..=32_767 {
        if let Some([_, sixteenths]) = steps.next_if(|&[from, _]| from == p) {
            due = sixteenths;
        }
        table[0] = 32_768 - p as u16;
        let costs = Costs::adapted(&table).expect("the table is sound");
        assert_eq!(costs.mode(false), due as f32 / 16.0, "{p}");
    }
    // 32,768 costs as much as the one before, 0, and is no step.
    assert_eq!((steps.next(), due), (None, 0));
}
