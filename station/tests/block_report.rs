//! Block reports that a station makes itself, block by block.

mod common;

use common::page::{line, page, Line};
use common::{cases, counting, program_text, report_program, Random};
use palette_station::report::{Listed, Report, Totals, MAX_BLOCKS};
use palette_station::{list, search, Colors, Costs, ListingView, Palette, Refusal, MAX_WORDS};

fn written(report: &Report) -> String {
    let mut page = Vec::new();
    report.write(&mut page).unwrap();
    String::from_utf8(page).unwrap()
}

fn listed(palette: &Palette) -> Result<Listed, Refusal> {
    let listing = list(palette, &[])?;
    Ok(Listed::of(&palette.view(), &listing.view()))
}

fn reported(palettes: &[Palette]) -> Report {
    let mut report = Report::new();
    palettes
        .iter()
        .for_each(|palette| report.push(listed(palette)));
    report
}

fn due(palettes: &[Palette]) -> String {
    page(&palettes.iter().map(line).collect::<Vec<Line>>())
}

/// A palette that is listed, or refused for its colours (11) or its map (15). Sides and number of
/// colours are always in order, so that a program reads on behind it.
fn palette(random: &mut Random) -> Palette {
    let (width, height) = (random.between(1, 20), random.between(1, 20));
    let mut palette = counting(width, height, random.between(2, 8));
    match random.below(5) {
        0 => palette.colors = Colors::new(&vec![9; palette.colors.len()]).unwrap(),
        1 => palette.map[0] = palette.colors.len() as u8,
        2 => palette.flags[0] = 2,
        _ => {}
    }
    palette
}

fn palettes(random: &mut Random) -> Vec<Palette> {
    let count = random.between(0, 12);
    (0..count).map(|_| palette(random)).collect()
}

#[test]
fn a_refused_block_has_a_line_and_counts_nowhere() {
    let mut random = Random(41);
    let mut refused = [0; 16];
    for place in 0..cases(300) {
        let palettes = palettes(&mut random);
        let report = reported(&palettes);
        assert_eq!(written(&report), due(&palettes), "set {place}");
        let errors = report.lines().filter_map(Result::err);
        errors.for_each(|refusal| refused[refusal.number() as usize] += 1);
    }
    assert!(refused[11] > 50 && refused[15] > 50, "{refused:?}");
}

#[test]
fn the_report_program_says_the_same() {
    let mut random = Random(42);
    for place in 0..cases(60) {
        let palettes = palettes(&mut random);
        let text: String = palettes.iter().map(program_text).collect();
        let Some(printed) = report_program(text.as_bytes()) else {
            return;
        };
        let page = written(&reported(&palettes));
        assert_eq!(page, String::from_utf8_lossy(&printed), "set {place}");
    }
}

/// A search that finds none is a line as well.
#[test]
fn searched_blocks_with_and_without_palette() {
    let mut random = Random(43);
    let (mut report, mut lines) = (Report::new(), Vec::new());
    for _ in 0..60 {
        let drawn = random.drawn();
        let found = search(&drawn.block(), 60.0, &Costs::default());
        let number = |refusal: &Refusal| u64::from(refusal.number());
        lines.push(found.as_ref().map_err(number).and_then(line));
        report.push(found.and_then(|palette| listed(&palette)));
    }
    assert!(lines.iter().any(Result::is_ok) && lines.iter().any(Result::is_err));
    assert_eq!(written(&report), page(&lines));
}

#[test]
fn appended_reports_are_one() {
    let mut random = Random(44);
    for _ in 0..cases(100) {
        let sets = [0; 3].map(|_| palettes(&mut random));
        let mut joined = Report::new();
        sets.iter().for_each(|set| joined.append(reported(set)));
        assert_eq!(joined, reported(&sets.concat()));
    }
}

/// So many blocks, of which every third is refused.
fn many(blocks: usize) -> Vec<Palette> {
    let one = |place: usize| {
        let mut palette = counting(1 + place % 5, 1, 2);
        palette.flags[0] = [0, 0, 2][place % 3];
        palette
    };
    (0..blocks).map(one).collect()
}

#[test]
fn blocks_past_the_limit_are_counted_and_nothing_else() {
    for blocks in [9_998, 9_999, 10_000, 10_001, 25_000] {
        let palettes = many(blocks);
        let report = reported(&palettes);
        assert_eq!(report.blocks(), blocks);
        assert_eq!(report.lines().count(), blocks.min(10_000));
        let cut = reported(&palettes[..blocks.min(MAX_BLOCKS)]);
        assert_eq!(report.totals(), cut.totals());
        assert!(written(&report) == due(&palettes), "{blocks} blocks");
    }
}

#[test]
fn appended_past_the_limit() {
    for sizes in [[5_000, 4_999, 0], [5_000, 4_999, 1], [10_001, 0, 3]] {
        let [first, second, third] = sizes.map(many);
        let mut joined = reported(&first);
        joined.append(reported(&second));
        joined.append(reported(&third));
        let all = [first, second, third].concat();
        assert!(joined == reported(&all), "{sizes:?}");
        assert!(written(&joined) == due(&all), "{sizes:?}");
    }
    let mut behind = reported(&many(1));
    behind.append(reported(&many(20_000)));
    assert_eq!(behind.blocks(), 20_001);
}

/// Fields of 8 columns hold the totals of the longest lists, and of any that is made by hand.
#[test]
fn the_most_of_everything_fits() {
    let palette = counting(64, 64, 8);
    let longest = list(&palette, &[9999; 64]).unwrap();
    assert_eq!(longest.words.len(), MAX_WORDS);
    let forged = ListingView {
        words: &[0; 70_000],
        raw_width: u32::MAX,
    };
    let huge = Palette {
        map: vec![0; 70_000],
        ..palette.clone()
    };
    let exact = Listed::of(&palette.view(), &longest.view());
    let numbers = [exact.calls(), exact.cells(), exact.raw_width()];
    assert_eq!(numbers, [4234, 4096, longest.raw_width]);
    for listed in [exact, Listed::of(&huge.view(), &forged)] {
        let mut report = Report::new();
        (0..=MAX_BLOCKS).for_each(|_| report.push(Ok(listed)));
        let page = written(&report);
        let lengths: Vec<usize> = page.lines().map(str::len).collect();
        assert!(lengths[..MAX_BLOCKS].iter().all(|&length| length == 32));
        assert_eq!(lengths[MAX_BLOCKS..], [40, 48]);
        assert_eq!(report.totals().calls, 9999 * listed.calls());
    }
}

#[test]
fn the_fraction_is_exact_and_in_lowest_terms() {
    let mut random = Random(45);
    for _ in 0..cases(2000) {
        let common = 1 + random.below(60);
        let [cells, raw_width] = [0; 2].map(|_| (common * random.below(900)) as u32);
        let totals = Totals {
            calls: 7,
            cells,
            raw_width,
        };
        let (numerator, denominator) = totals.raw_width_per_cell();
        if cells == 0 {
            assert_eq!((numerator, denominator), (0, 1));
            continue;
        }
        let [n, d] = [numerator, denominator].map(u64::from);
        assert_eq!(n * u64::from(cells), d * u64::from(raw_width));
        assert!((2..=denominator).all(|k| numerator % k > 0 || denominator % k > 0));
    }
}
