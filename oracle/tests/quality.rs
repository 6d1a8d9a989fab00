//! The least sums are exact and agree, the check notices what is outside the bounds, and the
//! original's groups are told as it cuts them.

use palette_oracle::chosen_cuts::{chosen, Chosen};
use palette_oracle::fraction::Fraction;
use palette_oracle::generate::histograms::histogram;
use palette_oracle::histogram::Histogram;
use palette_oracle::quality::check::{held, Fault};
use palette_oracle::quality::floats::{as_the_original, division_first, programme};
use palette_oracle::quality::least::{least_by_all_cuts, least_by_programme, Groups};
use palette_oracle::quality::run::run;
use palette_oracle::quality::visited::least_visited;

const SEED: u64 = 9;

fn made(bins: &[(u32, u32)]) -> Histogram {
    Histogram {
        bd: 8,
        levels: bins.iter().map(|bin| bin.0).collect(),
        counts: bins.iter().map(|bin| bin.1).collect(),
    }
}

/// Levels 10, 11 and 12 with a cell each.
fn three() -> Histogram {
    made(&[(10, 1), (11, 1), (12, 1)])
}

fn drawn(count: u64) -> impl Iterator<Item = Histogram> {
    (0..count).map(|index| histogram(SEED, index).0)
}

/// How many ways there are to take k of n.
fn ways(n: usize, k: usize) -> u64 {
    (0..k).fold(1, |ways, taken| {
        ways * (n - taken) as u64 / (taken + 1) as u64
    })
}

#[test]
fn both_leasts_agree_and_every_cut_is_formed() {
    let small = drawn(600).filter(|histogram| histogram.levels.len() <= 11);
    for histogram in small {
        let (groups, most) = (Groups::of(&histogram), *histogram.group_counts().end());
        let by_all = least_by_all_cuts(&groups, most);
        let sums: Vec<Fraction> = by_all.iter().map(|least| least.sum).collect();
        assert_eq!(sums, least_by_programme(&groups, most), "{histogram:?}");
        for (k, least) in (1..).zip(&by_all) {
            assert_eq!(least.formed, ways(groups.levels() - 1, k - 1));
        }
    }
}

#[test]
fn three_levels_have_two_least_cuts_and_the_earlier_one_stands() {
    let leasts = least_by_all_cuts(&Groups::of(&three()), 3);
    let sums = [(2, 1), (1, 2), (0, 1)].map(|(num, den)| Fraction::new(num, den));
    assert!(leasts.iter().map(|least| least.sum).eq(sums));
    assert!(leasts.iter().map(|least| least.cuts).eq([1, 2, 1]));
    let chosen = chosen(&three());
    let starts: Vec<&[usize]> = chosen.iter().map(|choice| &choice.starts[..]).collect();
    assert_eq!(starts, [&[0][..], &[0, 1], &[0, 1, 2]]);
    assert!(chosen.iter().map(|choice| choice.error).eq([2.0, 0.5, 0.0]));
    assert_eq!(chosen[1].centers, [10, 12]);
}

/// In f64 the two differ, and the later one is the smaller: it is chosen, and is least all the same.
#[test]
fn two_cuts_have_exactly_14_fifteenths() {
    let histogram = made(&[(1, 1), (2, 14), (3, 1)]);
    let groups = Groups::of(&histogram);
    let least = least_by_all_cuts(&groups, 2)[1];
    assert_eq!((least.sum, least.cuts), (Fraction::new(14, 15), 2));
    assert_eq!(groups.sum(&[0, 1]), Fraction::new(14, 15));
    assert_eq!(groups.sum(&[0, 2]), Fraction::new(14, 15));
    assert_eq!(chosen(&histogram)[1].starts, [0, 2]);
}

/// The faults of an answer for the three levels in two groups, whose least is 1/2.
fn faults(starts: &[usize], error: f64, centers: &[u16]) -> Vec<Fault> {
    let choice = Chosen {
        starts: starts.to_vec(),
        error,
        centers: centers.to_vec(),
    };
    held(&Groups::of(&three()), 2, &choice, &Fraction::new(1, 2)).faults
}

#[test]
fn an_error_off_by_more_than_the_bound_is_noticed() {
    let bound = 1.0 / 4096.0;
    for error in [0.5, 0.5 + bound, 0.5 - bound] {
        assert_eq!(faults(&[0, 1], error, &[10, 12]), []);
    }
    let (above, below) = ((0.5 + bound).next_up(), (0.5 - bound).next_down());
    for error in [above, below, 0.0, -0.5, f64::NAN, f64::INFINITY] {
        assert_eq!(faults(&[0, 1], error, &[10, 12]), [Fault::Error], "{error}");
    }
}

#[test]
fn what_is_no_cut_is_noticed() {
    let others: [&[usize]; 8] = [
        &[],
        &[0],
        &[1, 2],
        &[0, 0],
        &[1, 0],
        &[0, 3],
        &[0, 1, 2],
        &[0, 1, 1],
    ];
    for starts in others {
        assert_eq!(faults(starts, 0.5, &[10, 12]), [Fault::NoCut], "{starts:?}");
    }
}

#[test]
fn other_colours_are_noticed() {
    assert_eq!(faults(&[0, 2], 0.5, &[11, 12]), []);
    for centers in [&[10, 11][..], &[10], &[10, 12, 12]] {
        assert_eq!(faults(&[0, 1], 0.5, centers), [Fault::Colours]);
    }
}

#[test]
fn a_sum_too_far_above_the_least_is_noticed() {
    let far = made(&[(0, 9), (1, 9), (200, 9)]);
    let groups = Groups::of(&far);
    let mut choice = chosen(&far).swap_remove(1);
    assert_eq!(choice.starts, [0, 2]);
    let least = groups.sum(&choice.starts);
    assert_eq!(held(&groups, 2, &choice, &least).faults, []);
    choice.starts = vec![0, 1];
    choice.centers = vec![0, 101];
    assert_eq!(held(&groups, 2, &choice, &least).faults, [Fault::Sum]);
}

/// The cut's sum is 1/2; the least is lowered to see where the bound lies, and raised.
#[test]
fn the_sums_bound_is_included() {
    let groups = Groups::of(&three());
    let faults = |num: u64, error: f64| {
        let choice = Chosen {
            error,
            ..chosen(&three()).swap_remove(1)
        };
        held(&groups, 2, &choice, &Fraction::new(num, 1 << 40)).faults
    };
    let (half, bound) = (1 << 39, 1 << 29);
    let lowered = 0.5 - 1.0 / 2048.0;
    assert_eq!(faults(half - bound, lowered), []);
    assert_eq!(faults(half - bound - 1, lowered), [Fault::Sum]);
    assert_eq!(faults(half + 1, 0.5), [Fault::BelowLeast]);
}

#[test]
fn groups_without_the_last_level_are_noticed() {
    for whole in drawn(300).filter(|histogram| histogram.levels.len() > 1) {
        let (groups, mut less) = (Groups::of(&whole), whole.clone());
        less.levels.pop();
        less.counts.pop();
        let leasts = least_by_programme(&groups, *less.group_counts().end());
        for (k, (choice, least)) in (1..).zip(chosen(&less).iter().zip(&leasts)) {
            let faults = held(&groups, k, choice, least).faults;
            assert!(faults.contains(&Fault::Error), "{k} of {whole:?}");
        }
    }
}

/// In two groups every cut is visited. In more the groups before the last may be others than the
/// least, where f64 does not tell two cuts apart.
#[test]
fn the_least_of_the_visited_cuts_is_another() {
    let mut above = 0;
    for histogram in drawn(1500) {
        let groups = Groups::of(&histogram);
        let visited = least_visited(&histogram);
        let leasts = least_by_programme(&groups, visited.len());
        assert!(visited[..2.min(visited.len())]
            .iter()
            .eq(leasts.iter().take(2)));
        assert!(visited
            .iter()
            .zip(&leasts)
            .all(|(visited, least)| visited >= least));
        above += visited
            .iter()
            .zip(&leasts)
            .filter(|pair| pair.0 > pair.1)
            .count();
    }
    assert!(above > 0);
}

#[test]
fn our_programme_is_the_originals() {
    for histogram in drawn(1500) {
        let (ours, original) = (programme(&histogram, as_the_original), chosen(&histogram));
        let bits = |all: &[Chosen]| -> Vec<u64> {
            all.iter().map(|choice| choice.error.to_bits()).collect()
        };
        assert_eq!(bits(&ours), bits(&original), "{histogram:?}");
        assert_eq!(ours, original, "{histogram:?}");
    }
}

#[test]
fn the_division_first_gives_other_errors() {
    let differs = |histogram: &Histogram| programme(histogram, division_first) != chosen(histogram);
    assert!(drawn(100).filter(differs).count() > 20);
}

#[test]
fn a_run_finds_the_same_on_any_number_of_threads() {
    let one = run(SEED, 150, 1);
    assert!(one.all_within());
    assert_eq!(one, run(SEED, 150, 3));
    assert_ne!(one, run(SEED + 1, 150, 3));
}
