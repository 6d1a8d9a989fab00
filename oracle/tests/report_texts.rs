//! Texts for the report are of every kind and end in every way, and the crate's files hold what
//! the original gives.

use palette_oracle::generate::reports::{
    greatest_text, report_text, small_text, ReportKind, ReportKinds,
};
use palette_oracle::generate::texts::TextKind;
use palette_oracle::listing_text::take;
use palette_oracle::report_text::{read, report, Reading};
use palette_oracle::reported::reported;
use palette_oracle::Palette;
use std::collections::BTreeSet;
use std::fs;

const COUNT: u64 = 6000;
const SEED: u64 = 13;
const PALETTES: u64 = 40;

/// The greatest text of a palette: six fields, 8 colours, 64 entries, flags and rows.
const GREATEST: usize = 8 * (6 + 8 + 64 + 64 + 64 * 64) + 4 + 64;

struct Case {
    text: Vec<u8>,
    kinds: ReportKinds,
    reading: Reading,
}

fn cases() -> Vec<Case> {
    let case = |index| {
        let (text, kinds) = report_text(5, index);
        let reading = read(&text);
        Case {
            text,
            kinds,
            reading,
        }
    };
    (0..COUNT).map(case).collect()
}

/// How many blocks were refused by a number and did not end the reading.
fn passed_over(reading: &Reading, number: u32) -> usize {
    let refused = reading.blocks.iter().filter(|block| **block == Err(number));
    refused.count() - usize::from(reading.ended_by == Some(number))
}

#[test]
fn texts_are_of_every_kind_and_end_in_every_way() {
    let cases = cases();
    let count = |holds: &dyn Fn(&Case) -> bool| cases.iter().filter(|case| holds(case)).count();
    for &kind in ReportKind::ALL {
        let drawn = count(&|case| case.kinds.report == kind);
        assert!(drawn >= 80, "{}: {drawn}", kind.name());
    }
    for &kind in &TextKind::ALL[1..] {
        let drawn = count(&|case| case.kinds.damage == Some(kind));
        assert!(drawn >= 50, "{}: {drawn}", kind.name());
    }
    for number in [1, 2, 11, 12, 13] {
        let ended = count(&|case| case.reading.ended_by == Some(number));
        assert!(ended >= 80, "ended by {number}: {ended}");
    }
    assert!(count(&|case| case.reading.ended_by == Some(17)) >= 2000);
    assert!(count(&|case| case.reading.ended_by.is_none()) >= 1000);
    for number in [11, 15] {
        let inside = count(&|case| passed_over(&case.reading, number) > 0);
        assert!(inside >= 800, "{number} inside: {inside}");
    }
}

#[test]
fn sound_texts_end_by_themselves_and_faulty_ones_by_a_number() {
    for Case { kinds, reading, .. } in cases() {
        match kinds.report {
            ReportKind::Sound | ReportKind::Empty => assert_eq!(reading.ended_by, None),
            ReportKind::HeaderRefused | ReportKind::EmptyLine | ReportKind::BytesAfter => {
                assert!(reading.ended_by.is_some())
            }
            _ => {}
        }
    }
}

#[test]
fn every_number_of_palettes_is_met() {
    let numbers: BTreeSet<usize> = cases().iter().map(|c| c.reading.blocks.len()).collect();
    assert!(
        (0..=40).all(|number| numbers.contains(&number)),
        "{numbers:?}"
    );
}

/// Cut at the place the text could not be read.
#[test]
fn palettes_lie_across_the_places_where_a_buffer_may_end() {
    let cases = cases();
    let clean = |case: &Case| case.reading.ended_by.is_none();
    for place in [4096, GREATEST, GREATEST + 1, 65_536] {
        let across = |case: &&Case| {
            clean(case) && case.text.len() > place && read(&case.text[..place]).ended_by == Some(17)
        };
        let met = cases.iter().filter(across).count();
        assert!(met >= 20, "{place}: {met}");
    }
    let touch = |case: &Case| {
        let first = case.text.len() > GREATEST && read(&case.text[..GREATEST]).blocks.len() == 1;
        first && read(&case.text[..GREATEST]).ended_by.is_none()
    };
    assert!(cases.iter().any(touch));
}

#[test]
fn palettes_for_long_texts_are_in_form() {
    for index in 0..300 {
        let reading = read(&small_text(6, index));
        assert_eq!((reading.blocks.len(), reading.ended_by), (1, None));
    }
    for index in 0..8 {
        let text = greatest_text(6, index);
        assert_eq!(text.len(), GREATEST);
        assert!(read(&text).blocks[0].is_ok());
    }
}

/// The palettes of the crate's text that can be read, with their caches.
fn palettes() -> Vec<(Palette, Vec<u16>)> {
    let text = reported(SEED, PALETTES);
    let mut rest = &text[..];
    std::iter::from_fn(|| take(&mut rest).ok()).collect()
}

#[test]
fn the_crates_text_has_all_sorts_and_a_tail() {
    let text = reported(SEED, PALETTES);
    // The report program's buffer is filled, and filled again.
    assert!(text.len() > 2 * 65_536);
    let reading = read(&text);
    assert_eq!(reading.blocks.len() as u64, PALETTES + 1);
    assert_eq!(reading.ended_by, Some(17));
    assert!(passed_over(&reading, 11) >= 5 && passed_over(&reading, 15) >= 3);
    let mut accepted = palettes();
    let mut blocks = reading.blocks.iter();
    accepted.retain(|_| blocks.next().is_some_and(|block| block.is_ok()));
    let some = |holds: &dyn Fn(&Palette, &[u16]) -> bool| {
        accepted
            .iter()
            .any(|(palette, cache)| holds(palette, cache))
    };
    assert!(some(&|_, cache| cache.is_empty()) && some(&|_, cache| cache.len() == 64));
    assert!(some(&|p, _| p.transposed) && some(&|p, _| !p.transposed));
    assert!(some(&|p, _| p.w == 64 && p.h == 64) && some(&|p, _| p.w == 1 && p.h == 1));
    for n in 2..=8 {
        assert!(some(&|p, _| p.colors.len() == n), "n = {n}");
    }
    for bd in 8..=12 {
        assert!(some(&|p, _| p.bd == bd), "bd = {bd}");
    }
}

#[test]
fn the_crate_is_run_on_these() {
    let held = |name: &str| fs::read(format!("../crates/report/{name}")).expect(name);
    let text = reported(SEED, PALETTES);
    assert!(held("stdin") == text);
    assert!(held("stdout") == report(&text));
}
