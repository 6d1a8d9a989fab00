//! Times our search, listing and reading beside the original's search on three drawn sheets; or
//! our strips beside our separate searches; or two archives beside each other.

mod against;
mod archive;
mod batch;
mod options;
mod plot;
mod rounds;
mod strips;
mod table;

use against::Against;
use archive::Archive;
use batch::{due, read_ours, search_ours, Prices, Room};
use options::{Options, What};
use palette_oracle::generate::adapted::lent_table;
use palette_oracle::generate::costs::logarithms;
use palette_oracle::generate::sheets::{corners, Cut, Sheet};
use palette_station::{list, Costs, Palette};
use plot::{chart, Bar};
use rounds::{time, Timed};
use std::process::ExitCode;
use table::{print_head, print_line, Outcome};

/// Blocks that are timed together: enough for the clock, and few enough that ours and the
/// original follow each other closely and meet the same disturbances.
const BATCH: usize = 8;

fn main() -> ExitCode {
    match Options::read().and_then(|options| run(&options)) {
        Ok(0) => ExitCode::SUCCESS,
        Ok(_) => ExitCode::FAILURE,
        Err(message) => {
            eprintln!("{message}");
            ExitCode::FAILURE
        }
    }
}

/// The count of differences.
fn run(options: &Options) -> Result<usize, String> {
    let differences = match &options.what {
        What::Ours => run_ours(options)?,
        What::Strips => strips::run(options.part, options.passes),
        What::Against(old, new) => {
            let archives = [&Archive::load(old)?, &Archive::load(new)?];
            against::run(&Against { archives, options })
        }
    };
    println!("differences {differences}");
    Ok(differences)
}

fn run_ours(options: &Options) -> Result<usize, String> {
    let (differences, bars) = time_ours(options);
    if let Some(path) = &options.plot {
        std::fs::write(path, chart(&bars)).map_err(|error| format!("{path}: {error}"))?;
    }
    Ok(differences)
}

fn time_ours(options: &Options) -> (usize, Vec<Bar>) {
    let costs = Costs::from_table(*logarithms());
    let (part, passes) = (options.part, options.passes);
    println!("each {part}. block, the least of {passes} passes");
    print_head();
    let (mut differences, mut bars) = (0, Vec::new());
    for sheet in options.sheets() {
        for side in options.sides() {
            for lambda in options.lambdas() {
                let outcome = measure(&sheet, side, lambda, &costs, options);
                print_line(sheet.name, side, lambda, &outcome);
                differences += outcome.differences;
                bars.push(Bar {
                    sheet: sheet.name,
                    side,
                    lambda,
                    ratio: outcome.times.whole(),
                });
            }
        }
    }
    (differences, bars)
}

fn measure(sheet: &Sheet, side: usize, lambda: f32, costs: &Costs, options: &Options) -> Outcome {
    let mut outcome = Outcome::default();
    let prices = Prices { lambda, costs };
    let taken: Vec<_> = corners(side).step_by(options.part).collect();
    for corners in taken.chunks(BATCH) {
        let blocks = corners.iter().map(|&corner| sheet.cut(corner, side));
        let mut batch: Vec<Timed> = blocks
            .filter_map(|block| looked_at(block, &prices, &mut outcome))
            .collect();
        outcome
            .times
            .add(&time(&mut batch, &prices, options.passes));
    }
    outcome
}

/// Searches and lists a block by both and reads our list back, untimed. A block on which they
/// differ, or whose list gives another palette back, is not timed.
fn looked_at(block: Cut, prices: &Prices, outcome: &mut Outcome) -> Option<Timed> {
    let due = due(&block, prices);
    let place: usize = outcome.numbers.values().sum();
    *outcome.numbers.entry(due.number).or_default() += 1;
    let mut room = Room::of(&block);
    let answer = search_ours(&block, prices, &mut room);
    let same_search = due.same(&answer).iter().all(|(_, same)| *same);
    let palette = answer.ok().map(|found| found.to_palette());
    let listed = palette.as_ref().and_then(|ours| list(ours, &[]).ok());
    let words = listed.map_or_else(Vec::new, |listing| listing.words);
    let original = due
        .found
        .map(|found| palette_oracle::list(&found.palette, &[]));
    let same_list = words == original.unwrap_or_default();
    let ours = palette.as_ref();
    let is_read = ours.is_none_or(|ours| reads_as(ours, &block, &words, &mut room));
    if !(same_search && same_list && is_read) {
        outcome.differences += 1;
        return None;
    }
    Some(Timed {
        block,
        room,
        palette,
        words,
        rows: lent_table(0, place as u64).0,
    })
}

/// Whether the palette's list is read as that palette; what the search counted is in no list.
fn reads_as(palette: &Palette, block: &Cut, words: &[u32], room: &mut Room) -> bool {
    let mut due = palette.view();
    (due.head, due.map_bits) = (0.0, 0.0);
    read_ours(block, words, room) == Ok(due)
}
