//! What is printed at the end.

use crate::command::{bars, folder, names, pgm, printed, three_blocks, value};
use std::fs;

#[test]
fn summary_of_a_small_sheet() {
    let folder = folder("summary");
    fs::write(folder.join("a.pgm"), pgm(48, 16, 255, three_blocks)).unwrap();
    let summary = printed(&folder, "a.pgm --side 16");
    for (name, due) in [
        ("sheet", "48 by 16, depth 8"),
        ("levels", "as scanned"),
        ("lambda", "60"),
        ("blocks", "3 of side 16"),
        ("blank", "1 (33.3 % of all: one level)"),
        ("drawn", "2 (66.7 % of all)"),
        ("with palette", "1 (50.0 % of the drawn)"),
        ("without palette", "1 (50.0 % of the drawn)"),
    ] {
        assert_eq!(value(&summary, name), due);
    }
    let raw_width = value(&summary, "raw width");
    assert!(raw_width.ends_with(" bits that the coder writes as they are"));
    let seconds = value(&summary, "seconds");
    let (all, search) = seconds
        .split_once(" of 4 allowed; search and listing ")
        .unwrap();
    assert!(all.parse::<f64>().unwrap() >= search.parse().unwrap());
    assert!(value(&summary, "samples a second").parse::<f64>().unwrap() > 0.0);
    assert_eq!(summary.lines().count(), 14, "{summary}");
    assert_eq!(names(&folder), ["a.pgm"]);
}

#[test]
fn rounding_is_said() {
    let folder = folder("rounding");
    fs::write(folder.join("a.pgm"), pgm(48, 16, 255, three_blocks)).unwrap();
    let summary = printed(&folder, "a.pgm --side 16 --levels 32");
    let due = "rounded to 32 greys, a step before the proved part";
    assert_eq!(value(&summary, "levels"), due);
    assert!(!summary.contains("warning"));
}

/// Rows of 16 by 16: so many of 256 levels, the others drawn in six; then a blank one.
fn drawn(many: usize, all: usize) -> Vec<u8> {
    pgm(16 * (all + 1), 16, 255, |x, y| match x / 16 {
        block if block < many => (x % 16 + 16 * y) as u16,
        block if block < all => bars(x, y),
        _ => 255,
    })
}

#[test]
fn a_warning_from_more_than_a_tenth() {
    let folder = folder("warning");
    for (many, all, warned) in [(0, 1, false), (1, 10, false), (2, 20, false), (2, 19, true)] {
        fs::write(folder.join("a.pgm"), drawn(many, all)).unwrap();
        let summary = printed(&folder, "a.pgm --side 16");
        assert!(value(&summary, "drawn").starts_with(&format!("{all} ")));
        assert_eq!(summary.contains("warning"), warned, "{many} of {all}");
    }
    fs::write(folder.join("a.pgm"), drawn(2, 19)).unwrap();
    let summary = printed(&folder, "a.pgm --side 16");
    let due = "2 of 19 drawn blocks have no palette (2 more than 32 levels: see --levels)";
    assert_eq!(value(&summary, "warning"), due);
}

#[test]
fn a_warning_for_small_blocks_names_the_side() {
    let folder = folder("small-warning");
    fs::write(folder.join("a.pgm"), drawn(0, 1)).unwrap();
    let summary = printed(&folder, "a.pgm --side 8");
    let due = "4 of 4 drawn blocks have no palette (4 both sides below 16: see --side)";
    assert_eq!(value(&summary, "warning"), due);
    assert!(value(&summary, "blank").starts_with("4 "));
}

#[test]
fn a_blank_sheet_has_no_warning() {
    let folder = folder("blank");
    fs::write(folder.join("a.pgm"), pgm(70, 70, 255, |_, _| 255)).unwrap();
    for words in ["a.pgm", "a.pgm --side 4"] {
        let summary = printed(&folder, words);
        assert!(value(&summary, "blank").contains(" (100.0 % of all"));
        assert_eq!(value(&summary, "drawn"), "0 (0.0 % of all)");
        let estimated = value(&summary, "estimated bits");
        assert_eq!(estimated, "0 for colours, 0 for maps");
        assert!(!summary.contains("warning"), "{summary}");
    }
}
