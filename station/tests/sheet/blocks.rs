//! How a sheet is cut, and what is listed of each block.

use crate::command::{bars, blocks, folder, form, pgm, printed, three_blocks, value, zero_costs};
use std::fs;
use std::path::Path;

#[test]
fn the_specifications_block_is_listed_to_the_letter() {
    let folder = folder("worked");
    zero_costs(&folder, 301);
    let halves = |x: usize, _| if x < 8 { 10 } else { 20 };
    fs::write(folder.join("a.pgm"), pgm(16, 1, 255, halves)).unwrap();
    let mut expected = format!("{:8}\n", 22);
    let head = [
        (3, 0, 0),
        (1, 8, 10),
        (1, 2, 0),
        (1, 5, 9),
        (1, 1, 0),
        (4, 3, 0),
        (2, 2, 0),
    ];
    let cells = (1..16).map(|x| (5, 0, u32::from(x == 8)));
    for (kind, first, second) in head.into_iter().chain(cells) {
        expected += &format!("{kind:8}{first:8}{second:8}\n");
    }
    let words = "a.pgm --lambda 0 --costs costs";
    assert_eq!(blocks(&folder, words), expected);
    let summary = printed(&folder, words);
    assert_eq!(value(&summary, "calls"), "22");
    assert!(value(&summary, "raw width").starts_with("17 bits "));
    let estimated = value(&summary, "estimated bits");
    assert_eq!(estimated, "16 for colours, 1 for maps");
}

#[test]
fn refused_blocks_hold_what_no_list_does() {
    let folder = folder("refused-blocks");
    for (maxval, digits) in [(255, 2), (1023, 3), (4095, 3)] {
        fs::write(folder.join("a.pgm"), pgm(48, 16, maxval, three_blocks)).unwrap();
        let blocks = blocks(&folder, "a.pgm --side 16");
        let lines: Vec<&str> = blocks.lines().collect();
        let calls: usize = lines[0].trim().parse().unwrap();
        assert!(lines[1..=calls].iter().all(|line| line.len() == 24));
        let mut rest = vec![
            "       0       9     200".to_string(),
            "       0      10".to_string(),
        ];
        let hex = |v: u16| format!("{v:0digits$x}");
        rest.extend((0..16).map(|y| (32..48).map(|x| hex(three_blocks(x, y))).collect()));
        assert_eq!(lines[calls + 1..], rest);
    }
}

/// Form, picture, page and summary, without the line of seconds and that of the speed.
fn output(folder: &Path, words: &str) -> [Vec<u8>; 4] {
    let names = ["lists", "picture", "page"];
    let files = "--lists lists --picture picture --report page";
    let summary = printed(folder, &format!("{words} {files}"));
    let timed = |line: &&str| line.starts_with("seconds ") || line.starts_with("samples a second");
    let lines: String = summary.lines().filter(|line| !timed(line)).collect();
    let [lists, picture, page] = names.map(|name| fs::read(folder.join(name)).unwrap());
    [lists, picture, page, lines.into_bytes()]
}

/// Three rows of blocks, or one that is cut for the threads.
#[test]
fn output_does_not_depend_on_threads() {
    let folder = folder("threads");
    for (width, height) in [(150, 131), (1300, 5), (1300, 64)] {
        fs::write(folder.join("a.pgm"), pgm(width, height, 255, bars)).unwrap();
        for side in [5, 16, 64] {
            let words = |threads: usize| format!("a.pgm --side {side} --threads {threads}");
            let one = output(&folder, &words(1));
            for threads in [2, 3, 8, 40] {
                let same = output(&folder, &words(threads)) == one;
                assert!(same, "{width} by {height}, side {side}, {threads} threads");
            }
        }
    }
}

#[test]
fn edge_blocks_are_smaller() {
    let folder = folder("edges");
    fs::write(folder.join("a.pgm"), pgm(70, 65, 255, bars)).unwrap();
    let summary = printed(&folder, "a.pgm");
    assert_eq!(value(&summary, "blocks"), "4 of side 64");
    assert!(value(&summary, "with palette").starts_with("3 "));
    assert!(value(&summary, "without palette").starts_with("1 "));
}

/// The lists of all blocks of the bars, each cut out by itself as a sheet.
fn lists_one_by_one(folder: &Path, width: usize, height: usize, side: usize) -> String {
    let mut all = String::new();
    for top in (0..height).step_by(side) {
        for left in (0..width).step_by(side) {
            let (w, h) = (side.min(width - left), side.min(height - top));
            let block = pgm(w, h, 255, |x, y| bars(left + x, top + y));
            fs::write(folder.join("block.pgm"), block).unwrap();
            all += &blocks(folder, "block.pgm");
        }
    }
    all
}

#[test]
fn a_block_gets_the_list_that_it_gets_alone() {
    let folder = folder("alone");
    for (width, height, side) in [(70, 65, 64), (50, 40, 16), (33, 20, 20)] {
        fs::write(folder.join("a.pgm"), pgm(width, height, 255, bars)).unwrap();
        let together = blocks(&folder, &format!("a.pgm --side {side}"));
        let alone = lists_one_by_one(&folder, width, height, side);
        assert!(together == alone, "{width} by {height}, side {side}");
    }
}

#[test]
fn smallest_and_largest_side() {
    let folder = folder("sides");
    fs::write(folder.join("a.pgm"), pgm(9, 7, 255, bars)).unwrap();
    let summary = printed(&folder, "a.pgm --side 1");
    assert_eq!(value(&summary, "blocks"), "63 of side 1");
    assert!(value(&summary, "blank").starts_with("63 "));
    let samples =
        (0..63).map(|cell| format!("       0       8\n{:02x}\n", bars(cell % 9, cell / 9)));
    assert_eq!(
        blocks(&folder, "a.pgm --side 1"),
        samples.collect::<String>()
    );
    fs::write(folder.join("a.pgm"), pgm(128, 64, 255, bars)).unwrap();
    let summary = printed(&folder, "a.pgm --side 64");
    assert_eq!(value(&summary, "blocks"), "2 of side 64");
    assert!(value(&summary, "with palette").starts_with("2 "));
    assert_eq!(form(&folder, "a.pgm --side 64"), form(&folder, "a.pgm"));
}
