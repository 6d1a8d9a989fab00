//! The command line.

use crate::command::{bars, folder, form, pgm, printed, refused, zero_costs};
use palette_station::sheet::{Form, Settings};
use palette_station::Costs;
use std::fs;

#[test]
fn bad_options() {
    let folder = folder("bad-options");
    fs::write(folder.join("a.pgm"), pgm(20, 20, 255, bars)).unwrap();
    let cases = [
        ("--side 0", "--side is 1 to 64"),
        ("--side 65", "--side is 1 to 64"),
        ("--side x", "--side is 1 to 64"),
        ("--side", "needs a value"),
        ("--side 8 --side 8", "given twice"),
        ("--threads 0", "--threads is 1 to 256"),
        ("--threads 257", "--threads is 1 to 256"),
        ("--lambda -1", "--lambda is 0 to 1048576"),
        ("--lambda nan", "--lambda is 0 to 1048576"),
        ("--lambda 1048577", "--lambda is 0 to 1048576"),
        ("--sides 8", "unknown option --sides"),
        ("-x", "unknown option -x"),
        ("b.pgm", "more than one sheet"),
        ("--sample s.pgm", "goes without a sheet"),
        ("--lists l --picture ./l", "used twice"),
        ("--lists ./a.pgm", "used twice"),
        ("--picture -", "only the sheet and --lists"),
        ("--report -", "only the sheet and --lists"),
        ("--report", "needs a value"),
        ("--report r --report s", "given twice"),
        ("--report ./a.pgm", "used twice"),
        ("--report r --lists ./r", "used twice"),
        ("--report r --picture ./r", "used twice"),
        ("--report c --costs ./c", "used twice"),
        ("--report r --sample s", "goes without a sheet"),
        ("--levels 1", "--levels is 2 to 32"),
        ("--levels 33", "--levels is 2 to 32"),
        ("--levels x", "--levels is 2 to 32"),
        ("--levels -2", "--levels is 2 to 32"),
        ("--levels 4294967298", "--levels is 2 to 32"),
    ];
    for (words, reason) in cases {
        refused(&folder, &format!("a.pgm {words}"), reason);
    }
}

#[test]
fn bad_costs() {
    let folder = folder("bad-costs");
    fs::write(folder.join("a.pgm"), pgm(20, 20, 255, bars)).unwrap();
    let words = "a.pgm --costs costs --lists l";
    for count in [0, 300, 302] {
        zero_costs(&folder, count);
        refused(&folder, words, &format!("{count} costs, not 301"));
    }
    for cost in ["32.5", "-1", "nan", "two"] {
        fs::write(folder.join("costs"), "1 ".repeat(300) + cost).unwrap();
        refused(&folder, words, &format!("cost {cost} is not"));
    }
    fs::write(folder.join("costs"), [0xff; 301]).unwrap();
    refused(&folder, words, "costs: ");
    fs::write(
        folder.join("costs"),
        "1 ".repeat(301) + &" ".repeat(1 << 20),
    )
    .unwrap();
    refused(&folder, words, "too long");
    refused(&folder, "a.pgm --costs absent --lists l", "absent");
}

/// Without `--costs`, and where a file lends the same 301 numbers.
#[test]
fn default_costs() {
    let folder = folder("default-costs");
    fs::write(folder.join("a.pgm"), pgm(40, 20, 255, bars)).unwrap();
    let without = form(&folder, "a.pgm");
    let settings = Form::read(without.as_bytes()).unwrap().settings().clone();
    assert_eq!(settings.costs, Costs::default());
    assert_eq!(settings, Settings::of_depth(8));
    let costs = Costs::default().as_table().map(|cost| cost.to_string());
    fs::write(folder.join("costs"), costs.join("\n")).unwrap();
    assert_eq!(form(&folder, "a.pgm --costs costs"), without);
}

#[test]
fn help() {
    let folder = folder("help");
    let help = printed(&folder, "--help");
    for option in [
        "side", "levels", "lambda", "costs", "threads", "lists", "picture", "report", "sample",
    ] {
        assert!(help.contains(&format!("--{option} ")), "{option}");
    }
    assert!(help.lines().all(|line| line.len() < 81));
}
