//! The histograms drawn are accepted and of every kind, and the original's groups are told for the
//! histogram asked with.

use palette_oracle::check::{level, top};
use palette_oracle::chosen_cuts::{chosen, kept};
use palette_oracle::fraction::Fraction;
use palette_oracle::generate::blocks::block;
use palette_oracle::generate::histograms::{histogram, Counts, Form, HistogramKinds};
use palette_oracle::generate::levels::Spacing;
use palette_oracle::histogram::{Histogram, MOST_CELLS};
use palette_oracle::map_searches::{counted_search, map_searches};
use palette_oracle::quality::check::held;
use palette_oracle::quality::least::{least_by_all_cuts, least_by_programme, Groups};
use palette_oracle::Block;
use std::collections::{BTreeMap, BTreeSet};

const SEED: u64 = 9;
const COUNT: u64 = 4000;

fn all() -> impl Iterator<Item = (Histogram, HistogramKinds)> {
    (0..COUNT).map(|index| histogram(SEED, index))
}

fn cells(histogram: &Histogram) -> u32 {
    histogram.counts.iter().sum()
}

#[test]
fn all_are_accepted() {
    for (index, (made, _)) in all().enumerate() {
        let Histogram { bd, levels, counts } = &made;
        assert!(levels.windows(2).all(|pair| pair[0] < pair[1]), "{index}");
        assert!(*levels.last().unwrap() <= top(*bd), "{index}");
        assert_eq!(levels.len(), counts.len());
        assert!(counts.iter().all(|&count| count > 0), "{index}");
        assert!(cells(&made) as usize <= MOST_CELLS, "{index}");
    }
}

#[test]
fn every_size_and_kind_is_met() {
    let (mut sizes, mut names) = (BTreeSet::new(), BTreeSet::new());
    let mut group_counts = BTreeSet::new();
    for (made, kinds) in all() {
        group_counts.insert(chosen(&made).len());
        sizes.insert((made.bd, made.levels.len()));
        names.extend(kinds.names());
    }
    let due = (8..=12).flat_map(|bd| (1..=32).map(move |count| (bd, count)));
    assert!(sizes.into_iter().eq(due));
    assert!(group_counts.into_iter().eq(1..=8));
    assert_eq!(
        names.len(),
        Form::ALL.len() + Spacing::ALL.len() + Counts::ALL.len()
    );
}

#[test]
fn symmetric_ones_are_mirrored_and_full_ones_are_full() {
    let mut met = [0; 2];
    for (made, kinds) in all() {
        let Histogram { levels, counts, .. } = &made;
        if kinds.form == Form::Symmetric {
            let ends = levels[0] + levels.last().unwrap();
            let mirrored = levels.iter().rev().map(|level| ends - level);
            assert!(mirrored.eq(levels.iter().copied()), "{made:?}");
            assert!(counts.iter().rev().eq(counts), "{made:?}");
            met[0] += 1;
        }
        if kinds.form == Form::Free && kinds.counts == Counts::Full {
            assert_eq!(cells(&made) as usize, MOST_CELLS);
            met[1] += 1;
        }
    }
    assert!(met.iter().all(|&met| met > 100), "{met:?}");
}

/// The greatest sum of squares there is, but for one that has 4,095 alone.
#[test]
fn the_greatest_squares_are_met() {
    let great = |(made, _): &(Histogram, HistogramKinds)| {
        made.levels[0] > 3900 && cells(made) as usize == MOST_CELLS && made.levels.len() > 1
    };
    assert!(all().filter(great).count() > 50);
}

#[test]
fn several_cuts_of_symmetric_ones_are_least() {
    let few = |(made, kinds): &(Histogram, HistogramKinds)| {
        kinds.form == Form::Symmetric && (3..=10).contains(&made.levels.len())
    };
    let tied = all().filter(few).filter(|(made, _)| {
        let leasts = least_by_all_cuts(&Groups::of(made), *made.group_counts().end());
        leasts.iter().any(|least| least.cuts > 1)
    });
    assert!(tied.count() > 50);
}

/// Else nothing would lie between the least and the sum's bound.
#[test]
fn some_near_ties_are_cut_above_the_least() {
    let near = all().filter(|(_, kinds)| kinds.form == Form::NearTie);
    let above = near.filter(|(made, _)| {
        let groups = Groups::of(made);
        let leasts = least_by_programme(&groups, *made.group_counts().end());
        let pairs = (1..).zip(chosen(made).into_iter().zip(leasts));
        let mut off = pairs.map(|(k, (choice, least))| held(&groups, k, &choice, &least).sum_off);
        off.any(|off| off.unwrap() > Fraction::new(0, 1))
    });
    assert!(above.count() > 2);
}

/// Blocks of the search with their histograms.
fn blocks() -> impl Iterator<Item = (Block, Histogram)> {
    let with_histogram = |block: Block| {
        let mut counts = BTreeMap::new();
        for sample in &block.samples {
            *counts.entry(level(*sample)).or_default() += 1;
        }
        let made = Histogram {
            bd: block.bd,
            levels: counts.keys().copied().collect(),
            counts: counts.into_values().collect(),
        };
        (block, made)
    };
    (0..400).map(move |index| with_histogram(block(SEED, index).0))
}

#[test]
fn the_colours_found_are_those_of_the_chosen_groups() {
    let mut sizes = BTreeSet::new();
    for (block, made) in blocks() {
        if let Some(found) = counted_search(&(&block).into()).found {
            let colors = found.palette.colors;
            assert_eq!(chosen(&made)[colors.len() - 1].centers, colors);
            sizes.insert(colors.len());
        }
    }
    assert!(sizes.into_iter().eq(2..=8));
}

#[test]
fn what_a_search_tells_is_thrown_away() {
    let asked = histogram(SEED, 0).0;
    let before = chosen(&asked);
    let searched = blocks().filter(|(block, _)| !map_searches(block).is_empty());
    assert_eq!(searched.take(20).count(), 20);
    assert_eq!(kept(), 0);
    assert_eq!(chosen(&asked), before);
}
