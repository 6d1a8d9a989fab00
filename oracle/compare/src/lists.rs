//! `list` and `pred`, word by word and bit by bit, with what they must leave alone; and the raw
//! width beside the bits that the original's coder sends.

use crate::buffer::{same_bits, Buffer};
use crate::drive::{drive, Run};
use crate::tally::Tally;
use palette_compare::clock::Clock;
use palette_compare::due::Same;
use palette_oracle::answers::{list_answer, pred_answer, ListAnswer, PredAnswer};
use palette_oracle::check::ceil_log2;
use palette_oracle::generate::palettes::PaletteKinds;
use palette_oracle::generate::requests::{request, Request, RequestKinds};
use palette_oracle::{sent_bits, unpack, Palette};
use palette_station::{list_into, pred_into, Colors, PaletteView, Refusal, MAX_COLORS};
use std::time::Duration;

/// No call word.
const WORD: u32 = 0xeeee_eeee;

/// A number, and no colour.
const VALUE: f32 = -3.5;

pub fn compare(run: Run) -> Result<bool, String> {
    drive(run, |index, tally| {
        let (request, kinds) = request(run.seed, index);
        let (listed, predicted) = (list_answer(&request), pred_answer(&request));
        count_kinds(tally, &kinds, &listed, &predicted);
        let same = match lent(&request.palette) {
            Ok(palette) => {
                let [list, sent] = same_list(&request, &palette, &listed, tally);
                vec![list, sent, ("pred", same_pred(&palette, &predicted))]
            }
            Err(refusal) => {
                tally.kind("type", "colours refused");
                same_refusal(&request.palette, refusal, [listed.number, predicted.number])
            }
        };
        count_uniform(tally, &listed.words);
        tally.case(index, &same);
        Ok(())
    })
}

/// The uniform call by its n, and by whether the original's coder sends it a bit shorter than
/// ceil_log2(n): only such calls tell document 02's L4 from what document 01 had.
fn count_uniform(tally: &mut Tally, words: &[u32]) {
    for &word in words {
        if let (2, n, _) = unpack(word) {
            let shorter = sent_bits(&[word]) < ceil_log2(n);
            let width = if shorter { "shorter" } else { "whole" };
            tally.kind("uniform", format!("{n}, {width}"));
        }
    }
}

fn count_kinds(tally: &mut Tally, kinds: &RequestKinds, listed: &ListAnswer, pred: &PredAnswer) {
    tally.kind("list number", format!("{:2}", listed.number));
    tally.kind("pred number", format!("{:2}", pred.number));
    tally.kind("cache", kinds.cache.name());
    count_palette(tally, kinds.palette);
    for damage in &kinds.damages {
        tally.kind("damage", damage.name());
    }
}

pub fn count_palette(tally: &mut Tally, kinds: PaletteKinds) {
    match kinds {
        Some((spacing, flags, cells)) => {
            tally.kind("spacing", spacing.name());
            tally.kind("flags", flags.name());
            tally.kind("cells", cells.name());
        }
        None => tally.kind("palette", "found"),
    }
}

/// The palette as the package takes it.
pub fn lent(palette: &Palette) -> Result<PaletteView<'_>, Refusal> {
    Ok(PaletteView {
        width: palette.w,
        height: palette.h,
        bd: palette.bd,
        colors: Colors::new(&palette.colors)?,
        transposed: palette.transposed,
        map: &palette.map,
        flags: &palette.flags,
        // Neither function looks at the estimate.
        head: 0.0,
        map_bits: 0.0,
    })
}

/// Colours that no palette of the package holds. Document 01 may refuse the request by an earlier
/// test.
fn same_refusal(palette: &Palette, refusal: Refusal, numbers: [u32; 2]) -> Vec<Same> {
    let [list, pred] = numbers.map(|number| matches!(number, 1 | 2 | 11));
    vec![
        ("count of colours", palette.colors.len() > MAX_COLORS),
        ("refusal", refusal.number() == 11),
        ("list", list),
        ("pred", pred),
    ]
}

/// What is returned and written; and the raw width returned, which must be the number of bits that
/// the original's coder sends for the list.
fn same_list(
    request: &Request,
    palette: &PaletteView,
    due: &ListAnswer,
    tally: &mut Tally,
) -> [Same; 2] {
    let mut words = Buffer::new(due.room, WORD);
    let room = words.room();
    let start = Clock::start();
    let answer = list_into(palette, &request.cache, room);
    let time = start.elapsed();
    if answer.is_ok() && due.number == 0 {
        tally.time(time, time_original(request));
    }
    let (same, sent) = match answer {
        Ok(listing) => {
            let returned = (listing.words, listing.raw_width);
            let same = due.number == 0 && returned == (&due.words[..], due.raw_width);
            (same, listing.raw_width == sent_bits(&due.words))
        }
        // Nothing is sent.
        Err(refusal) => (refusal.number() == due.number, true),
    };
    let list = same && words.holds(&due.words, u32::from);
    [("list", list), ("bits sent", sent)]
}

fn time_original(request: &Request) -> Duration {
    let start = Clock::start();
    let words = palette_oracle::list(&request.palette, &request.cache);
    let elapsed = start.elapsed();
    std::hint::black_box(words);
    elapsed
}

fn same_pred(palette: &PaletteView, due: &PredAnswer) -> bool {
    let mut values = Buffer::new(due.room, VALUE);
    let same = match pred_into(palette, values.room()) {
        Ok(ours) => due.number == 0 && same_bits(ours, &due.values, f32::to_bits),
        Err(refusal) => refusal.number() == due.number,
    };
    same && values.holds(&due.values, f32::to_bits)
}
