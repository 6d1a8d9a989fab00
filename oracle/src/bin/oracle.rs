//! Answers of the original, for cases read or generated.

use palette_oracle::asking::{self, fresh, hatched, MOST_BLOCKS};
use palette_oracle::generate::{blocks, caches, contexts, palettes};
use palette_oracle::quality;
use palette_oracle::replay::{self, replayed};
use palette_oracle::replay_blocks::{self, replayed_blocks};
use palette_oracle::replay_contexts::{self, all_neighbours, replayed_corners};
use palette_oracle::replay_costs::{self, replayed_tables, steps};
use palette_oracle::replay_reads::{self, replayed_reads};
use palette_oracle::replay_strips::{self, replayed_strips};
use palette_oracle::report_text::report;
use palette_oracle::reported::reported;
use palette_oracle::text::{answer, parse, Case};
use palette_oracle::{worked, Block};
use std::io::{self, BufRead, BufWriter, Write};
use std::process::ExitCode;
use std::time::Instant;

const USAGE: &str =
    "usage: oracle answer | blocks SEED COUNT | lists SEED COUNT | contexts SEED COUNT | worked\n\
     | replay-input SEED COUNT | replay-output SEED COUNT\n\
     | replay-blocks-input SEED COUNT | replay-blocks-output SEED COUNT\n\
     | read-input SEED COUNT | read-output SEED COUNT\n\
     | contexts-input SEED COUNT | contexts-output SEED COUNT\n\
     | costs-input SEED COUNT | costs-output SEED COUNT\n\
     | strips-input SEED COUNT | strips-output SEED COUNT\n\
     | report-input SEED COUNT | report-output SEED COUNT\n\
     | asking-input [SEED COUNT] | asking-output [SEED COUNT]\n\
     | quality SEED COUNT [THREADS]";

fn main() -> ExitCode {
    let arguments: Vec<String> = std::env::args().skip(1).collect();
    let arguments: Vec<&str> = arguments.iter().map(String::as_str).collect();
    let result = match arguments[..] {
        ["answer"] => answer_cases(),
        ["blocks", seed, count] => print_cases(seed, count, block_case),
        ["lists", seed, count] => print_cases(seed, count, list_case),
        ["contexts", seed, count] => print_cases(seed, count, context_case),
        ["worked"] => return print_worked(),
        ["replay-input", seed, count] => write_each(seed, count, replayed, input(replay::bytes)),
        ["replay-output", seed, count] => write_each(seed, count, replayed, output(replay::line)),
        ["replay-blocks-input", seed, count] => {
            write_each(seed, count, replayed_blocks, input(replay_blocks::bytes))
        }
        ["replay-blocks-output", seed, count] => {
            write_each(seed, count, replayed_blocks, output(replay_blocks::line))
        }
        ["read-input", seed, count] => {
            write_each(seed, count, replayed_reads, input(replay_reads::bytes))
        }
        ["read-output", seed, count] => {
            write_each(seed, count, replayed_reads, output(replay_reads::line))
        }
        ["contexts-input", seed, count] => {
            write_each(seed, count, replayed_corners, input(replay_contexts::bytes))
        }
        ["contexts-output", seed, count] => write_contexts_output(seed, count),
        ["costs-input", seed, count] => {
            write_each(seed, count, replayed_tables, input(replay_costs::bytes))
        }
        ["costs-output", seed, count] => write_costs_output(seed, count),
        ["strips-input", seed, count] => {
            write_each(seed, count, replayed_strips, input(replay_strips::bytes))
        }
        ["strips-output", seed, count] => {
            write_each(seed, count, replayed_strips, output(replay_strips::lines))
        }
        ["report-input", seed, count] => write_report(seed, count, |text| text),
        ["report-output", seed, count] => write_report(seed, count, |text| report(&text)),
        ["asking-input", ref choice @ ..] => write_asking_input(choice),
        ["asking-output", ref choice @ ..] => write_asking_output(choice),
        ["quality", seed, count] => print_quality(seed, count, "2"),
        ["quality", seed, count, threads] => print_quality(seed, count, threads),
        _ => Err(USAGE.to_string()),
    };
    match result {
        Ok(()) => ExitCode::SUCCESS,
        Err(message) => {
            eprintln!("{message}");
            ExitCode::FAILURE
        }
    }
}

/// Prints each case with its answer. Answers that were in the text are made anew, so a list put
/// through comes out as it was.
fn answer_cases() -> Result<(), String> {
    let mut out = BufWriter::new(io::stdout().lock());
    for (number, line) in io::stdin().lock().lines().enumerate() {
        let line = line.map_err(|e| e.to_string())?;
        if line.starts_with('=') {
            continue;
        }
        put(&mut out, &line)?;
        if !line.is_empty() && !line.starts_with('#') {
            let case = parse(&line).map_err(|e| format!("line {}: {e}", number + 1))?;
            put(&mut out, &answer(&case))?;
        }
    }
    out.flush().map_err(|e| e.to_string())
}

fn put(out: &mut impl Write, line: &str) -> Result<(), String> {
    writeln!(out, "{line}").map_err(|e| e.to_string())
}

/// A case and the names of its kinds.
type Named = (Case, String);

fn print_cases(seed: &str, count: &str, case: fn(u64, u64) -> Named) -> Result<(), String> {
    let (seed, count) = (whole("seed", seed)?, whole("count", count)?);
    let mut out = BufWriter::new(io::stdout().lock());
    for index in 0..count {
        let (case, names) = case(seed, index);
        put(&mut out, &format!("# {index} {names}"))?;
        put(&mut out, &case.to_string())?;
        put(&mut out, &answer(&case))?;
    }
    out.flush().map_err(|e| e.to_string())
}

fn whole(name: &str, text: &str) -> Result<u64, String> {
    text.parse().map_err(|e| format!("{name} {text}: {e}"))
}

/// What a replaying crate reads for a case; the place plays no part in it.
fn input<T>(bytes: fn(&T) -> Vec<u8>) -> impl Fn(usize, &T) -> Vec<u8> {
    move |_, case| bytes(case)
}

/// What a replaying crate must print for a case.
fn output<T>(line: fn(usize, &T) -> String) -> impl Fn(usize, &T) -> Vec<u8> {
    move |place, case| format!("{}\n", line(place, case)).into_bytes()
}

/// Writes the cases of a replaying crate in one of its two forms.
fn write_each<T, Cases: Iterator<Item = T>>(
    seed: &str,
    count: &str,
    cases: impl Fn(u64, usize) -> Cases,
    form: impl Fn(usize, &T) -> Vec<u8>,
) -> Result<(), String> {
    let (seed, count) = (whole("seed", seed)?, whole("count", count)? as usize);
    let placed = (1..).zip(cases(seed, count));
    write_pieces(placed.map(|(place, case)| form(place, &case)))
}

fn write_pieces(pieces: impl Iterator<Item = impl AsRef<[u8]>>) -> Result<(), String> {
    let mut out = BufWriter::new(io::stdout().lock());
    for piece in pieces {
        out.write_all(piece.as_ref()).map_err(|e| e.to_string())?;
    }
    out.flush().map_err(|e| e.to_string())
}

fn write_contexts_output(seed: &str, count: &str) -> Result<(), String> {
    write_pieces([all_neighbours()].into_iter())?;
    write_each(seed, count, replayed_corners, output(replay_contexts::line))
}

fn write_costs_output(seed: &str, count: &str) -> Result<(), String> {
    write_pieces([steps()].into_iter())?;
    write_each(seed, count, replayed_tables, output(replay_costs::line))
}

/// Writes the text of the crate `report` in one of its two forms.
fn write_report(seed: &str, count: &str, form: fn(Vec<u8>) -> Vec<u8>) -> Result<(), String> {
    let text = reported(whole("seed", seed)?, whole("count", count)?);
    let mut out = io::stdout().lock();
    out.write_all(&form(text)).map_err(|e| e.to_string())
}

fn write_asking_input(choice: &[&str]) -> Result<(), String> {
    write_pieces(asking::input(asking_blocks(choice)?))
}

fn write_asking_output(choice: &[&str]) -> Result<(), String> {
    write_pieces(asking::output(asking_blocks(choice)?))
}

/// The blocks of the gate, or fresh ones of a seed.
fn asking_blocks(choice: &[&str]) -> Result<Box<dyn Iterator<Item = Block>>, String> {
    let (seed, count) = match choice {
        [] => return Ok(Box::new(hatched().into_iter())),
        [seed, count] => (whole("seed", seed)?, whole("count", count)? as usize),
        _ => return Err(USAGE.to_string()),
    };
    if count > MOST_BLOCKS {
        return Err(format!(
            "count {count}: the crate reads {MOST_BLOCKS} blocks"
        ));
    }
    Ok(Box::new(fresh(seed, count)))
}

fn block_case(seed: u64, index: u64) -> Named {
    let (block, kinds) = blocks::block(seed, index);
    (Case::Search(block), kinds.names())
}

fn list_case(seed: u64, index: u64) -> Named {
    let (palette, kinds) = palettes::palette(seed, index);
    let (cache, cache_kind) = caches::cache(seed, index, &palette);
    let names = format!("{} cache={}", palettes::names(kinds), cache_kind.name());
    (Case::List(palette, cache), names)
}

fn context_case(seed: u64, index: u64) -> Named {
    let (corner, kind) = contexts::corner(seed, index);
    (Case::Context(corner), kind.name().to_string())
}

fn print_worked() -> ExitCode {
    let checks = worked::checks();
    for check in &checks {
        println!("{check}");
    }
    if checks.iter().all(worked::Check::ok) {
        ExitCode::SUCCESS
    } else {
        ExitCode::FAILURE
    }
}

/// Prints how far the original's groups lie from the least; an error if a case is outside.
fn print_quality(seed: &str, count: &str, threads: &str) -> Result<(), String> {
    let (seed, count) = (whole("seed", seed)?, whole("count", count)?);
    let threads = whole("threads", threads)?.max(1);
    let started = Instant::now();
    let tally = quality::run::run(seed, count, threads);
    put(&mut io::stdout(), &tally.to_string())?;
    put(
        &mut io::stdout(),
        &format!("{:.1} s", started.elapsed().as_secs_f64()),
    )?;
    match tally.all_within() {
        true => Ok(()),
        false => Err("not all cases are within the bounds".to_string()),
    }
}
