//! Compares our crates with the original on fresh cases; status 1 on any difference.

mod buffer;
mod contexts;
mod costs;
mod drive;
mod environments;
mod lists;
mod long_reports;
mod made;
mod program;
mod reads;
mod reports;
mod searches;
mod strips;
mod tally;
mod texts;

use drive::Run;
use std::process::ExitCode;
use std::time::Instant;

const USAGE: &str =
    "usage: compare search|sure|strips|full-strips|damaged-strips|lists|contexts|reads|damaged|costs\
     |made|texts|reports|environments SEED COUNT [THREADS]\n\
     | long-reports SEED | every-context";

/// A thread for each core of a small machine.
const THREADS: u64 = 2;

fn main() -> ExitCode {
    let start = Instant::now();
    let result = run();
    println!("{:.1} s", start.elapsed().as_secs_f64());
    match result {
        Ok(true) => ExitCode::SUCCESS,
        Ok(false) => ExitCode::FAILURE,
        Err(message) => {
            eprintln!("{message}");
            ExitCode::FAILURE
        }
    }
}

fn run() -> Result<bool, String> {
    let arguments: Vec<String> = std::env::args().skip(1).collect();
    let arguments: Vec<&str> = arguments.iter().map(String::as_str).collect();
    let (command, seed, count, threads) = match arguments[..] {
        ["every-context"] => return contexts::compare_every(THREADS),
        ["long-reports", seed] => return long_reports::compare(whole("seed", seed)?),
        [command, seed, count] => (command, seed, count, THREADS),
        [command, seed, count, threads] => (command, seed, count, whole("threads", threads)?),
        _ => return Err(USAGE.to_string()),
    };
    let run = Run {
        seed: whole("seed", seed)?,
        count: whole("count", count)?,
        threads: threads.max(1),
    };
    println!("{command}, seed {seed}");
    match command {
        "search" => searches::compare(run),
        "sure" => searches::compare_sure(run),
        "strips" => strips::compare_any(run),
        "full-strips" => strips::compare_full(run),
        "damaged-strips" => strips::compare_damaged(run),
        "lists" => lists::compare(run),
        "contexts" => contexts::compare(run),
        "reads" => reads::compare_sound(run),
        "damaged" => reads::compare_damaged(run),
        "costs" => costs::compare(run),
        "made" => made::compare(run),
        "texts" => texts::compare(run),
        "reports" => reports::compare(run),
        "environments" => environments::compare(run),
        _ => Err(USAGE.to_string()),
    }
}

fn whole(name: &str, text: &str) -> Result<u64, String> {
    text.parse().map_err(|e| format!("{name} {text}: {e}"))
}
