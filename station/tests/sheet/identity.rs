//! Two different sheets never have one form.

use crate::command::{bars, folder, form, pgm};
use crate::common::{cases, uncounted, Random};
use crate::form::{block, cut, text};
use palette_station::sheet::{Settings, Sheet};
use palette_station::{search, Palette, Refusal};
use std::fs;
use std::path::Path;

/// Whether the lists of two scans are the same file.
fn same_lists(folder: &Path, a: &[u8], b: &[u8], words: &str) -> bool {
    fs::write(folder.join("a.pgm"), a).unwrap();
    fs::write(folder.join("b.pgm"), b).unwrap();
    form(folder, &format!("a.pgm {words}")) == form(folder, &format!("b.pgm {words}"))
}

/// A sheet of more than 32 levels with a stroke on it, as of a numeral.
fn shaded(x: usize, y: usize, stroke: usize) -> u16 {
    if x == stroke && (20..40).contains(&y) {
        0
    } else {
        100 + (x + y) as u16
    }
}

#[test]
fn an_edit_in_a_refused_block_shows() {
    let folder = folder("edited");
    let before = pgm(64, 64, 255, |x, y| shaded(x, y, 30));
    let after = pgm(64, 64, 255, |x, y| shaded(x, y, 34));
    assert!(!same_lists(&folder, &before, &after, ""));
    assert!(same_lists(&folder, &before, &before, ""));
}

#[test]
fn a_white_and_a_black_sheet_differ() {
    let folder = folder("white-black");
    let [white, black] = [255, 0].map(|level| pgm(128, 128, 255, |_, _| level));
    assert!(!same_lists(&folder, &white, &black, ""));
    // Small blocks too.
    assert!(!same_lists(&folder, &white, &black, "--side 8"));
}

#[test]
fn a_sheet_and_its_like_on_its_side_differ() {
    let folder = folder("sides-swapped");
    let wide = pgm(128, 64, 255, |_, _| 240);
    let high = pgm(64, 128, 255, |_, _| 240);
    assert!(!same_lists(&folder, &wide, &high, ""));
}

#[test]
fn every_option_that_matters_is_part_of_the_form() {
    let folder = folder("option-forms");
    fs::write(folder.join("costs"), "1 ".repeat(301)).unwrap();
    fs::write(folder.join("a.pgm"), pgm(64, 64, 255, |_, _| 240)).unwrap();
    fs::write(folder.join("b.pgm"), pgm(64, 64, 511, |_, _| 240)).unwrap();
    let runs = [
        "a.pgm",
        "b.pgm",
        "a.pgm --side 32",
        "a.pgm --levels 18",
        "a.pgm --lambda 61",
        "a.pgm --costs costs",
    ];
    let forms = runs.map(|words| form(&folder, words));
    for (i, one) in forms.iter().enumerate() {
        assert!(forms[..i].iter().all(|other| other != one), "{}", runs[i]);
    }
    assert_eq!(
        forms[0],
        form(&folder, "a.pgm --lambda 60 --side 64 --threads 2")
    );
}

/// What the search finds in each block.
fn palettes(sheet: &Sheet, settings: &Settings) -> Vec<Result<Palette, Refusal>> {
    let blocks = cut(sheet, settings);
    let search = |cut| search(&block(cut, sheet.bd()), settings.lambda, &settings.costs);
    blocks.iter().map(search).collect()
}

fn same(a: &Result<Palette, Refusal>, b: &Result<Palette, Refusal>) -> bool {
    match (a, b) {
        (Ok(a), Ok(b)) => uncounted(a) == uncounted(b),
        _ => a == b,
    }
}

/// A sheet, and the same but for one sample.
fn pair(random: &mut Random) -> (Sheet, Sheet, usize) {
    let a = crate::form::sheet(random);
    let mut samples = a.samples().to_vec();
    let cell = random.between(0, samples.len() - 1);
    let top = (1 << a.bd()) - 1;
    let step = 1 + random.below(3) as u16;
    samples[cell] = if samples[cell] < top {
        (samples[cell] + step).min(top)
    } else {
        top - step
    };
    let b = Sheet::new(a.width(), a.height(), a.bd(), samples).unwrap();
    (a, b, cell)
}

/// Equal forms mean that all palettes are equal and that the sample lies in a block with one;
/// and where it is so, the forms are equal.
#[test]
fn one_sample_shows_unless_the_palettes_are_the_same() {
    let mut random = Random(15);
    let (mut equal, mut unequal) = (0, 0);
    for place in 0..cases(600) {
        let (a, b, cell) = pair(&mut random);
        let settings = Settings {
            side: [5, 16, 20, 32, 64][random.between(0, 4)],
            lambda: random.below(4000) as f32,
            ..Settings::of_depth(a.bd())
        };
        let (found_a, found_b) = (palettes(&a, &settings), palettes(&b, &settings));
        let all_same = found_a.iter().zip(&found_b).all(|(a, b)| same(a, b));
        let columns = a.width().div_ceil(settings.side);
        let (x, y) = (cell % a.width(), cell / a.width());
        let own = y / settings.side * columns + x / settings.side;
        let due = all_same && found_a[own].is_ok();
        assert_eq!(
            text(&a, &settings) == text(&b, &settings),
            due,
            "pair {place}"
        );
        *if due { &mut equal } else { &mut unequal } += 1;
    }
    assert!(equal > 30 && unequal > 300, "{equal} equal, {unequal} not");
}

/// A corrected numeral on a scan with noise, as it was found: most edits went unseen.
#[test]
fn edits_on_a_noisy_scan_show() {
    let folder = folder("noisy");
    let noise = |x: usize, y: usize| (x * 7919 + y * 104_729 + x * y % 1009) % 41;
    let scan = |x: usize, y: usize| 215 - noise(x, y) as u16 - bars(x, y) / 2;
    let before = pgm(192, 192, 255, scan);
    for edit in 0..20 {
        let (left, top) = (9 * edit, 180 - 9 * edit);
        let inked = |x: usize, y: usize| x == left + 3 && (top..top + 8).contains(&y);
        let after = pgm(
            192,
            192,
            255,
            |x, y| if inked(x, y) { 3 } else { scan(x, y) },
        );
        for words in ["", "--levels 16"] {
            assert!(
                !same_lists(&folder, &before, &after, words),
                "edit {edit} {words}"
            );
        }
    }
}
