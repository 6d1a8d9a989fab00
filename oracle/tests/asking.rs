//! The counted copy answers as the original, and the files of the crate `asking` hold what it
//! counts.

use palette_oracle::asking::{eight_levels, fresh, hatched, input, output};
use palette_oracle::check::levels;
use palette_oracle::generate::sheets::{hatching, sheets};
use palette_oracle::map_searches::{counted_search, map_searches, MapSearch};
use palette_oracle::{search, Block, Found};
use std::fs;
use std::io::{self, Write};
use std::path::Path;

const SEED: u64 = 21;
const COUNT: usize = 600;
const FOLDER: &str = "../crates/asking";

fn all() -> impl Iterator<Item = Block> {
    hatched().into_iter().chain(fresh(SEED, COUNT))
}

fn lines_of(block: &Block, map_search: &MapSearch) -> usize {
    if map_search.transposed {
        block.w
    } else {
        block.h
    }
}

#[test]
fn the_counted_copy_answers_as_the_original() {
    let fields = |found: Found| (found.bits.to_bits(), found.palette);
    for (index, b) in all().enumerate() {
        let original = search(&b.samples, b.w, b.h, b.bd, b.lambda, &b.costs);
        let counted = counted_search(&(&b).into());
        assert_eq!(counted.map_searches.is_empty(), original.is_none());
        assert_eq!(
            counted.found.map(fields),
            original.map(fields),
            "block {index}"
        );
    }
}

/// A map that is found was not stopped, so its search reached every line.
#[test]
fn the_found_map_was_searched_to_its_last_line() {
    for block in all() {
        let counted = counted_search(&(&block).into());
        let Some(Found { palette, .. }) = counted.found else {
            continue;
        };
        let is_found =
            |m: &&MapSearch| (m.colors, m.transposed) == (palette.colors.len(), palette.transposed);
        let found: Vec<&MapSearch> = counted.map_searches.iter().filter(is_found).collect();
        assert_eq!(found.len(), 1, "a size has one map search an orientation");
        assert_eq!(found[0].lines, palette.flags.len());
    }
}

#[test]
fn the_original_asks_for_each_colour_of_each_later_line() {
    let (mut stopped, mut columns) = (0, 0);
    for block in all() {
        for made in map_searches(&block) {
            let lines = lines_of(&block, &made);
            assert!((1..=lines).contains(&made.lines));
            assert_eq!(made.asked, made.colors * (made.lines - 1));
            stopped += usize::from(made.lines < lines);
            columns += usize::from(made.transposed);
        }
    }
    assert!(stopped >= 100, "stopped before the last line: {stopped}");
    assert!(columns >= 100, "columns as lines: {columns}");
}

#[test]
fn the_hatching_has_eight_levels() {
    for (block, side) in hatched().iter().zip([64, 63]) {
        assert_eq!((block.w, block.h), (side, side));
        assert_eq!(levels(&block.samples).len(), 8);
    }
    assert_eq!(eight_levels(&hatching(0)), Some((1024, 64)));
    let timed = sheets().into_iter().find(|sheet| sheet.name == "hatching");
    assert_eq!(eight_levels(&timed.unwrap()), None);
}

#[test]
fn the_hatching_is_searched_in_eight_colours_and_both_orientations() {
    let [rows_only, both] = hatched().map(|block| map_searches(&block));
    let of_eight = |made: &[MapSearch]| -> Vec<(bool, usize)> {
        let eight = made.iter().filter(|m| m.colors == 8);
        eight.map(|m| (m.transposed, m.lines)).collect()
    };
    assert_eq!(of_eight(&rows_only), [(false, 64)]);
    assert_eq!(of_eight(&both), [(false, 63), (true, 63)]);
    assert!(rows_only.iter().all(|m| !m.transposed));
    for (made, lines) in [(rows_only, 64), (both, 63)] {
        assert!(made.iter().any(|m| m.lines < lines), "none is stopped");
    }
}

/// Column names, then whole numbers with one space between; blocks in their order.
#[test]
fn the_lines_have_their_form() {
    let text: String = output(all()).collect();
    let mut lines = text.lines();
    assert_eq!(
        lines.next(),
        Some("block colours orientation lines first later same")
    );
    let mut last = 1;
    for line in lines {
        let numbers: Vec<usize> = line.split(' ').map(|n| n.parse().unwrap()).collect();
        let [place, colors, orientation, lines, first, later, same] = numbers[..] else {
            panic!("{line}");
        };
        assert!(place >= last && (2..=8).contains(&colors) && orientation <= 1);
        assert_eq!((first, later + 1, same), (0, lines, 1));
        last = place;
    }
    assert!(last <= 2 + COUNT && text.ends_with('\n'));
}

#[test]
fn the_crate_is_run_on_the_hatching() {
    if !Path::new(FOLDER).exists() {
        // Not by `eprintln`, which is not shown for a test that passes.
        let message = format!("skipped: there is no folder {FOLDER} whose files to compare\n");
        io::stderr().write_all(message.as_bytes()).unwrap();
        return;
    }
    let read = |name: &str| fs::read(format!("{FOLDER}/{name}")).expect(name);
    let bytes: Vec<u8> = input(hatched().into_iter()).flatten().collect();
    assert!(read("stdin") == bytes, "stdin is not the generator's");
    let lines: String = output(hatched().into_iter()).collect();
    assert!(
        read("stdout") == lines.as_bytes(),
        "stdout is not the original's"
    );
}

/// No contract can say that a function was called, so the two texts are read: each asks for the
/// constants of a line in one place, behind the return of the first line.
#[test]
fn the_copy_asks_where_the_map_search_does() {
    let map_search = source("../crates/map_search/src/lib.rt");
    let copy = source("../crates/asking/src/main.rt");
    // The map search's other asking is that of a cell tried by itself.
    assert_eq!(map_search.matches("key_cell(").count(), 2);
    assert_eq!(copy.matches("key_cell(").count(), 1);
    for (text, indent) in [body(&map_search, "fn first_key("), body(&copy, "fn ask(")] {
        let end = format!("{indent}    }}\n");
        let (first, later) = text.split_once(&end).expect("the first line returns");
        let start = format!("if l == 0 {{\n{indent}        return ");
        assert!(first.trim_start().starts_with(&start));
        assert!(!first.contains("key_cell("));
        assert!(later.contains(".scan.key_cell(map, &"));
        assert!(later.contains(".tables.codes, l, 0)"));
    }
}

fn source(path: &str) -> String {
    fs::read_to_string(path).unwrap_or_else(|e| panic!("{path}: {e}"))
}

/// What stands between a function's braces, and how far it is indented.
fn body<'a>(text: &'a str, head: &str) -> (&'a str, &'a str) {
    let (before, behind) = text.split_once(head).expect("the function is there");
    let indent = before.rsplit('\n').next().expect("a line");
    let (_, body) = behind
        .split_once(&format!("\n{indent}{{\n"))
        .expect("it has a body");
    let (body, _) = body
        .split_once(&format!("\n{indent}}}\n"))
        .expect("it ends");
    (body, indent)
}
