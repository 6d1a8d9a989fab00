//! The block report of a sheet.

use crate::command::{bars, command, folder, form, names, pgm, printed, three_blocks, value};
use crate::common::page::{line, page, Line};
use crate::common::{cases, program_text, report_program, Random};
use crate::form::{block, cut, settings, sheet};
use palette_station::sheet::{Settings, Sheet};
use palette_station::{search, Palette, Refusal};
use std::fs;

const LAST_LINE_ALONE: &str = "       0       0       0       0       0       1\n";

/// The palettes of a sheet, searched block by block.
fn found(sheet: &Sheet, settings: &Settings) -> Vec<Palette> {
    let blocks = cut(sheet, settings);
    let search = |cut| search(&block(cut, sheet.bd()), settings.lambda, &settings.costs);
    let answers = blocks.iter().map(search);
    answers
        .filter(|answer| !answer.as_ref().is_err_and(|r| r.means_no_palette()))
        .map(|answer| answer.expect("the block is sound"))
        .collect()
}

fn due(palettes: &[Palette]) -> String {
    page(&palettes.iter().map(line).collect::<Vec<Line>>())
}

fn written(sheet: &Sheet, settings: &Settings, threads: usize) -> String {
    let searched = sheet.search(settings, threads, |_, _| {}).unwrap();
    let mut page = Vec::new();
    searched.report.write(&mut page).unwrap();
    String::from_utf8(page).unwrap()
}

#[test]
fn the_page_is_what_its_description_says() {
    let mut random = Random(31);
    let mut several = 0;
    for place in 0..cases(300) {
        let sheet = sheet(&mut random);
        let settings = settings(&mut random, sheet.bd());
        let palettes = found(&sheet, &settings);
        let pages = [1, random.between(2, 6)].map(|threads| written(&sheet, &settings, threads));
        assert_eq!(pages, [0; 2].map(|_| due(&palettes)), "sheet {place}");
        several += usize::from(palettes.len() > 1);
    }
    assert!(several > 30, "{several} sheets with several palettes");
}

#[test]
fn the_page_is_what_the_report_program_prints() {
    let mut random = Random(32);
    for place in 0..cases(40) {
        let sheet = sheet(&mut random);
        let settings = settings(&mut random, sheet.bd());
        let palettes = found(&sheet, &settings);
        let text: String = palettes.iter().map(program_text).collect();
        let Some(printed) = report_program(text.as_bytes()) else {
            return;
        };
        let page = written(&sheet, &settings, 2);
        assert_eq!(page.as_bytes(), printed, "sheet {place}");
    }
}

/// So many blocks of 16 samples, each with a palette, below or beside one another.
fn strip(blocks: usize, is_high: bool) -> Sheet {
    let mut random = Random(33);
    let levels = [0, 80, 200, 255];
    let sample = |cell: usize| match cell % 16 {
        0 => 0,
        1 => 255,
        _ => levels[random.between(0, 3)],
    };
    let samples: Vec<u16> = (0..16 * blocks).map(sample).collect();
    let (width, height) = if is_high {
        (1, samples.len())
    } else {
        (samples.len(), 1)
    };
    Sheet::new(width, height, 8, samples).unwrap()
}

fn of_side_16() -> Settings {
    Settings {
        side: 16,
        lambda: 0.0,
        ..Settings::of_depth(8)
    }
}

fn check_strips(is_high: bool) {
    let settings = of_side_16();
    let palettes = found(&strip(10_005, is_high), &settings);
    assert_eq!(palettes.len(), 10_005);
    for blocks in [9_998, 9_999, 10_000, 10_005] {
        let sheet = strip(blocks, is_high);
        let due = due(&palettes[..blocks]);
        let pages = [1, 3].map(|threads| written(&sheet, &settings, threads));
        assert!(pages.iter().all(|page| *page == due), "{blocks} blocks");
        let line = "\n   10000       0       0       0      19\n       0";
        assert_eq!(due.contains(line), blocks > 9_999, "{blocks} blocks");
    }
}

/// Each block is a row of its own.
#[test]
fn more_than_9999_rows() {
    check_strips(true);
}

/// All blocks are in one row.
#[test]
fn more_than_9999_columns() {
    check_strips(false);
}

/// The count goes on behind the page's end.
#[test]
fn all_blocks_with_a_palette_are_counted() {
    for (blocks, is_high) in [(10_005, true), (20_001, false)] {
        let sheet = strip(blocks, is_high);
        let searched = sheet.search(&of_side_16(), 2, |_, _| {}).unwrap();
        assert_eq!(searched.report.blocks(), blocks);
        let last = searched.report.lines().last();
        assert_eq!(last, Some(Err(Refusal::BLOCK_COUNT)));
        assert_eq!(searched.report.lines().count(), 10_000);
    }
}

#[test]
fn the_report_program_says_the_same_of_too_many() {
    let settings = of_side_16();
    let palettes = found(&strip(10_002, true), &settings);
    let texts: Vec<String> = palettes.iter().map(program_text).collect();
    for blocks in [9_999, 10_000, 10_002] {
        let Some(printed) = report_program(texts[..blocks].concat().as_bytes()) else {
            return;
        };
        let page = written(&strip(blocks, true), &settings, 2);
        assert!(page.as_bytes() == printed, "{blocks} blocks");
    }
}

#[test]
fn a_sheet_without_palettes_has_the_last_line_alone() {
    let folder = folder("report-blank");
    for (width, height) in [(1, 1), (70, 70), (64, 200)] {
        fs::write(folder.join("a.pgm"), pgm(width, height, 255, |_, _| 255)).unwrap();
        printed(&folder, "a.pgm --report r");
        let page = fs::read_to_string(folder.join("r")).unwrap();
        assert_eq!(page, LAST_LINE_ALONE);
    }
    // Drawn, but in blocks that are too small.
    fs::write(folder.join("a.pgm"), pgm(70, 70, 255, bars)).unwrap();
    printed(&folder, "a.pgm --side 15 --report r");
    let page = fs::read_to_string(folder.join("r")).unwrap();
    assert_eq!(page, LAST_LINE_ALONE);
    if let Some(printed) = report_program(b"") {
        assert_eq!(page.as_bytes(), printed);
    }
}

/// One of three blocks has a palette; the others, and their numbers, are not on the page.
#[test]
fn only_blocks_with_a_palette_have_a_line() {
    let folder = folder("report-three");
    let scan = pgm(48, 16, 255, |x, y| three_blocks(47 - x, y));
    fs::write(folder.join("a.pgm"), scan).unwrap();
    let summary = printed(&folder, "a.pgm --side 16 --report r");
    let calls: u64 = value(&summary, "calls").parse().unwrap();
    let raw_width = value(&summary, "raw width");
    let bits: u64 = raw_width.split(' ').next().unwrap().parse().unwrap();
    let due = page(&[Ok([calls, 256, bits])]);
    assert_eq!(fs::read_to_string(folder.join("r")).unwrap(), due);
    assert_eq!(summary.lines().count(), 14, "{summary}");
}

#[test]
fn alone_and_together_with_the_others() {
    let folder = folder("report-together");
    let samples = (0..150 * 70).map(|cell| bars(cell % 150, cell / 150));
    let sheet = Sheet::new(150, 70, 8, samples.collect()).unwrap();
    fs::write(folder.join("a.pgm"), pgm(150, 70, 255, bars)).unwrap();
    let page = written(&sheet, &Settings::of_depth(8), 1);
    assert!(page.lines().count() > 4, "{page}");
    let lists = form(&folder, "a.pgm");
    for (words, prints_lists) in [
        ("--report r", false),
        ("--report ./r --lists l --picture p", false),
        ("--picture p --lists - --report r", true),
    ] {
        let words = format!("a.pgm {words}");
        let output = command(&folder, words.split(' ')).output().unwrap();
        assert!(output.status.success(), "{words}");
        assert_eq!(output.stdout == lists.as_bytes(), prints_lists, "{words}");
        assert_eq!(fs::read_to_string(folder.join("r")).unwrap(), page);
        fs::remove_file(folder.join("r")).unwrap();
    }
    assert_eq!(names(&folder), ["a.pgm", "l", "lists", "p"]);
}

/// Said once, and only where the page is written.
#[test]
fn the_summary_says_that_a_page_is_cut_off() {
    let folder = folder("report-cut-off");
    let name = |summary: &str| summary.lines().any(|line| line.starts_with("report "));
    for (blocks, is_cut) in [(9_999, false), (10_000, true), (12_345, true)] {
        let sheet = strip(blocks, true);
        let scan = pgm(1, 16 * blocks, 255, |_, y| sheet.samples()[y]);
        fs::write(folder.join("a.pgm"), scan).unwrap();
        let summary = printed(&folder, "a.pgm --side 16 --lambda 0 --report r --threads 2");
        assert_eq!(name(&summary), is_cut, "{summary}");
        if is_cut {
            let due = format!("the first 9999 of {blocks} blocks with palette");
            assert_eq!(value(&summary, "report"), due);
        }
        let page = fs::read_to_string(folder.join("r")).unwrap();
        assert!(page == written(&sheet, &of_side_16(), 1), "{blocks} blocks");
        assert!(!name(&printed(&folder, "a.pgm --side 16")));
    }
}

/// What the summary counts is in the last line too.
#[test]
fn the_report_of_the_sample_drawing() {
    let folder = folder("report-sample");
    let summary = printed(&folder, "--report r --sample s --threads 2");
    let page = fs::read_to_string(folder.join("r")).unwrap();
    assert_eq!(page.lines().count(), 934 + 1);
    let last = page.lines().last().unwrap();
    let fields: Vec<&str> = last.split_whitespace().collect();
    assert_eq!(fields[..2], ["0", &value(&summary, "calls")]);
    assert!(value(&summary, "raw width").starts_with(&format!("{} bits", fields[3])));
    assert_eq!(names(&folder), ["r", "s"]);
}
