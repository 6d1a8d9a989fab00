//! Runs the cases of a driver on several threads and prints what came out.

use crate::tally::Tally;
use std::thread;

/// Which cases, and on how many threads.
#[derive(Clone, Copy)]
pub struct Run {
    pub seed: u64,
    pub count: u64,
    pub threads: u64,
}

/// Whether all cases are the same. Each thread takes every so many-th case and has a tally of its
/// own; the tallies are added up in the order of the threads, so that a run prints the same
/// whichever thread is quicker.
pub fn drive(
    run: Run,
    case: impl Fn(u64, &mut Tally) -> Result<(), String> + Sync,
) -> Result<bool, String> {
    let part = |first: u64| {
        let mut tally = Tally::default();
        for index in (first..run.count).step_by(run.threads as usize) {
            case(index, &mut tally)?;
        }
        Ok(tally)
    };
    let parts: Vec<Result<Tally, String>> = thread::scope(|scope| {
        let started: Vec<_> = (0..run.threads)
            .map(|first| scope.spawn(move || part(first)))
            .collect();
        let ended = started.into_iter().map(|t| t.join());
        ended.map(|part| part.expect("a case broke off")).collect()
    });
    let mut total = Tally::default();
    for part in parts {
        total.add(part?);
    }
    println!("{total}");
    Ok(total.all_same())
}
