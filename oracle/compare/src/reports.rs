//! The report program, run anew on each text of several palettes.

use crate::drive::{drive, Run};
use crate::program;
use crate::tally::Tally;
use palette_oracle::generate::random::{Beside, Random};
use palette_oracle::generate::reports::{report_text, ReportKinds};
use palette_oracle::report_text::{page, read, Reading};
use std::thread;
use std::time::Duration;

/// Time for the program to read a piece before the next one is there.
const PAUSE: Duration = Duration::from_micros(20);
const MOST_PIECES: usize = 30;

pub const NAME: &str = "report";
pub const VARIABLE: &str = "REPORT_PROGRAM";

pub fn compare(run: Run) -> Result<bool, String> {
    let program = program::find(NAME, VARIABLE)?;
    drive(run, |index, tally| {
        let (text, kinds) = report_text(run.seed, index);
        let reading = read(&text);
        let pieces = pieces(run.seed, index, &text);
        count(tally, &kinds, &reading, text.len());
        tally.kind("pieces", among(pieces.len(), &[1]));
        let slowly = pieces.into_iter().inspect(|_| thread::sleep(PAUSE));
        let ran =
            program::run(&program, slowly, |_| {}).map_err(|e| format!("text {index}: {e}"))?;
        let same = ran.printed == page(&reading.blocks);
        let status = ran.status.code() == Some(0);
        tally.case(index, &[("page", same), ("status", status)]);
        Ok(())
    })
}

/// Three texts in four whole; else the reads of the program end anywhere.
fn pieces(seed: u64, index: u64, text: &[u8]) -> Vec<&[u8]> {
    let random = &mut Random::beside(seed, index, Beside::Pieces);
    if text.is_empty() || !random.one_in(4) {
        return vec![text];
    }
    let (first, mut rest) = text.split_at(random.below(text.len()));
    let mut pieces = vec![first];
    let longest = random.pick(&[1, 7, 60, 400, 3000, 40_000]);
    while rest.len() > longest && pieces.len() < MOST_PIECES {
        let (piece, after) = rest.split_at(random.between(1, longest));
        pieces.push(piece);
        rest = after;
    }
    pieces.push(rest);
    pieces
}

fn count(tally: &mut Tally, kinds: &ReportKinds, reading: &Reading, bytes: usize) {
    tally.kind("report", kinds.report.name());
    if let Some(damage) = kinds.damage {
        tally.kind("damage", damage.name());
    }
    tally.kind("lines", among(reading.blocks.len(), &[0, 1, 8, 20]));
    tally.kind("bytes", among(bytes, &[0, 4096, 33_972, 65_536]));
    let ended_by = reading.ended_by.map(|number| format!("{number:>2}"));
    tally.kind("ended-by", ended_by.as_deref().unwrap_or("its end"));
    tally.kind("refused-inside", refused_inside(reading));
}

/// The first end that a number does not exceed, in words.
fn among(number: usize, ends: &[usize]) -> String {
    match ends.iter().find(|&&end| number <= end) {
        Some(end) => format!("up to {end:>5}"),
        None => format!("above {:>5}", ends[ends.len() - 1]),
    }
}

/// The numbers of the refused blocks that did not end the reading.
fn refused_inside(reading: &Reading) -> &'static str {
    let inside = match reading.ended_by {
        Some(_) => &reading.blocks[..reading.blocks.len() - 1],
        None => &reading.blocks,
    };
    match (inside.contains(&Err(11)), inside.contains(&Err(15))) {
        (false, false) => "none",
        (true, false) => "11",
        (false, true) => "15",
        (true, true) => "11 and 15",
    }
}
