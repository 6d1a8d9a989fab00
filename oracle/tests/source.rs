//! The file that is built is the original but for one line, and its counted copy has six more.
//! The coder's functions, fields and start values stand in the original.

use std::fs;

#[test]
fn one_line_differs() {
    let original = fs::read_to_string(env!("ORIGINAL_PALETTE")).unwrap();
    let built = fs::read_to_string(concat!(env!("OUT_DIR"), "/palette.rs")).unwrap();
    assert_eq!(original.lines().count(), built.lines().count());
    let differing: Vec<_> = original
        .lines()
        .zip(built.lines())
        .filter(|(a, b)| a != b)
        .collect();
    assert_eq!(
        differing,
        [("use std::sync::OnceLock;", "use crate::lent::OnceLock;")]
    );
}

#[test]
fn the_counted_copy_has_six_lines_more() {
    let built = fs::read_to_string(concat!(env!("OUT_DIR"), "/palette.rs")).unwrap();
    let counted = fs::read_to_string(concat!(env!("OUT_DIR"), "/counted.rs")).unwrap();
    let is_added = |line: &&str| {
        line.contains("crate::map_searches::") || line.contains("crate::chosen_cuts::")
    };
    assert!(built
        .lines()
        .eq(counted.lines().filter(|line| !is_added(line))));
    let within = |head: &str| {
        let function = counted.split(head).nth(1).unwrap();
        function.split_once("\n}\n").unwrap().0
    };
    let added = |text: &str| text.lines().filter(is_added).count();
    assert_eq!(added(&counted), 6);
    assert_eq!(added(within("\nfn build_map(\n")), 3);
    assert_eq!(added(within("\nfn dp_centers(")), 1);
    assert!(is_added(&counted.lines().last().unwrap()));
}

fn original_coder() -> String {
    fs::read_to_string(env!("ORIGINAL_ENTROPY")).unwrap()
}

/// `new` with the start values, then the taken functions, each with all its lines.
fn built_coder() -> Vec<String> {
    let built = fs::read_to_string(concat!(env!("OUT_DIR"), "/raw_coder.rs")).unwrap();
    let functions = built.strip_prefix("impl RangeEncoder {\n").unwrap();
    let functions = functions.strip_suffix("}\n").unwrap();
    let whole = |function: &str| function.trim_start_matches('\n').to_string();
    functions.split_inclusive("\n    }\n").map(whole).collect()
}

fn name(function: &str) -> &str {
    let (_, head) = function.split_once("fn ").unwrap();
    head.split('(').next().unwrap()
}

#[test]
fn the_coders_functions_stand_in_the_original() {
    let (original, built) = (original_coder(), built_coder());
    for function in &built[1..] {
        let places: Vec<_> = original.match_indices(function).collect();
        assert_eq!(places.len(), 1, "{function}");
        let mut before = original[..places[0].0].lines();
        let owner = before.rfind(|line| line.starts_with("impl "));
        assert_eq!(owner, Some("impl RangeEncoder {"), "{function}");
    }
    let expected = [
        "new",
        "encode_uniform",
        "encode_bypass",
        "normalize_bypass",
        "tell_bits",
        "finish",
    ];
    let names: Vec<_> = built.iter().map(|function| name(function)).collect();
    assert_eq!(names, expected);
}

#[test]
fn the_coders_fields_are_the_originals() {
    let fields = |text: &str| -> Vec<String> {
        let (_, fields) = text.split_once("struct RangeEncoder {\n").unwrap();
        let (fields, _) = fields.split_once("\n}\n").unwrap();
        let plain = |line: &str| line.trim().trim_start_matches("pub(crate) ").to_string();
        fields.lines().map(plain).collect()
    };
    let all = fields(&original_coder());
    let taken = fields(include_str!("../src/av2/raw_coder.rs"));
    assert_eq!(taken.len(), 5);
    assert!(taken.iter().all(|field| all.contains(field)));
}

#[test]
fn the_coder_starts_as_the_original_does() {
    let start = "    pub(crate) fn new() -> Self {\n        RangeEncoder {\n";
    let end = "        }\n    }\n";
    let original = original_coder();
    let parts: Vec<_> = original.split(start).collect();
    assert_eq!(parts.len(), 2);
    let (all, _) = parts[1].split_once(end).unwrap();
    let built = built_coder();
    let taken = built[0].strip_prefix(start).unwrap();
    let taken: Vec<_> = taken.strip_suffix(end).unwrap().lines().collect();
    let stands = |line: &&str| all.lines().any(|l| l == *line);
    assert!(taken.iter().all(stands));
    let trimmed: Vec<_> = taken.iter().map(|line| line.trim()).collect();
    let expected = [
        "low: 0,",
        "range: 0x8000,",
        "count: -9,",
        "output: vec![],",
        "sink: false,",
    ];
    assert_eq!(trimmed, expected);
}
