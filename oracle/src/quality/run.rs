//! Draws histograms and holds the original's groups of each to L9's bounds, on several threads.

use super::check::{held, Fault};
use super::floats::{as_the_original, division_first, programme, Cost};
use super::least::{least_by_all_cuts, least_by_programme, Groups};
use super::tally::{Other, Tally};
use super::visited::least_visited;
use crate::chosen_cuts::{chosen, Chosen};
use crate::fraction::Fraction;
use crate::generate::histograms::histogram;
use crate::histogram::{Histogram, MOST_GROUPS};
use std::thread;

/// Every cut is formed of histograms with at most so many levels, and of each so many-th of all.
const FEW_LEVELS: usize = 14;
const EACH: u64 = 100;

/// Each thread takes every so many-th histogram. What is found is the same for any number of them.
pub fn run(seed: u64, count: u64, threads: u64) -> Tally {
    let part = |first: u64| {
        let mut tally = Tally::default();
        for index in (first..count).step_by(threads as usize) {
            hold(seed, index, &mut tally);
        }
        tally
    };
    let parts: Vec<Tally> = thread::scope(|scope| {
        let started: Vec<_> = (0..threads)
            .map(|first| scope.spawn(move || part(first)))
            .collect();
        let ended = started.into_iter().map(|part| part.join());
        ended.map(|part| part.expect("a case broke off")).collect()
    });
    let mut total = Tally::default();
    parts.into_iter().for_each(|part| total.add(part));
    total
}

fn hold(seed: u64, index: u64, tally: &mut Tally) {
    let (histogram, kinds) = histogram(seed, index);
    let (bd, levels) = (histogram.bd, histogram.levels.len());
    let sizes = [format!("bd={bd:>2}"), format!("levels={levels:>2}")];
    tally.drawn(kinds.names().into_iter().chain(sizes));
    let groups = Groups::of(&histogram);
    let leasts = leasts(index, &groups, tally);
    let chosen = chosen(&histogram);
    if chosen.len() != leasts.len() {
        tally.wrong(index, format!("{} numbers of groups", chosen.len()));
    }
    for (k, (chosen, least)) in (1..).zip(chosen.iter().zip(&leasts)) {
        tally.hold(index, k, &held(&groups, k, chosen, least));
    }
    for (visited, least) in least_visited(&histogram).iter().zip(&leasts) {
        tally.visit(visited.distance(least));
    }
    let known = Known {
        groups,
        leasts,
        chosen,
    };
    known.hold(&histogram, division_first, &mut tally.divided);
    known.hold(
        &without_last(histogram),
        as_the_original,
        &mut tally.dropped,
    );
}

/// By the programme; where every cut is formed, both ways must agree.
fn leasts(index: u64, groups: &Groups, tally: &mut Tally) -> Vec<Fraction> {
    let most = groups.levels().min(MOST_GROUPS);
    let leasts = least_by_programme(groups, most);
    if groups.levels() <= FEW_LEVELS || index.is_multiple_of(EACH) {
        let by_all = least_by_all_cuts(groups, most);
        tally.formed(&by_all);
        if !by_all.iter().map(|least| &least.sum).eq(&leasts) {
            tally.wrong(index, "the two leasts differ".to_string());
        }
    }
    leasts
}

fn without_last(mut histogram: Histogram) -> Histogram {
    histogram.levels.pop();
    histogram.counts.pop();
    histogram
}

/// What another way of choosing is held to.
struct Known {
    groups: Groups,
    leasts: Vec<Fraction>,
    chosen: Vec<Chosen>,
}

impl Known {
    fn hold(&self, histogram: &Histogram, cost: Cost, other: &mut Other) {
        let made = programme(histogram, cost);
        for (place, (made, least)) in made.iter().zip(&self.leasts).enumerate() {
            let held = held(&self.groups, place + 1, made, least);
            other.all.meet(&held);
            other.other_cut += u64::from(made.starts != self.chosen[place].starts);
            other.error_outside += u64::from(held.faults.contains(&Fault::Error));
            other.sum_outside += u64::from(held.faults.contains(&Fault::Sum));
            other.refused += u64::from(!held.faults.is_empty());
        }
    }
}
