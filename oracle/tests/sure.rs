//! Sure cells: chosen as the original chooses, but settled without a context where a rule says so.
//! With the rule of `generate/sure.rs` the lines that the original codes cell by cell come out as
//! they are; with each of a number of faults in it some do not, so `compare sure` would notice.

use palette_oracle::check::search_number;
use palette_oracle::generate::sure::{sure_block, sure_request};
use palette_oracle::{context, search, Block, Costs, Found, Palette};
use std::collections::{BTreeMap, BTreeSet};

const COUNT: u64 = 10_000;

/// Whether an index is settled, by its own distance and the others', lambda, n and the costs.
type Rule = fn(f32, &[f32], f32, usize, &Costs) -> bool;

/// The 40 colour costs of n.
fn of_n(costs: &Costs, n: usize) -> &[f32] {
    &costs[21 + 40 * (n - 2)..][..40]
}

fn greatest<'a>(costs: impl IntoIterator<Item = &'a f32>) -> f32 {
    costs.into_iter().copied().fold(0.0, f32::max)
}

fn below(own: f32, others: &[f32], lambda: f32, cap: f32) -> bool {
    others.iter().all(|&other| own + lambda * cap < other)
}

fn sound(own: f32, others: &[f32], lambda: f32, n: usize, costs: &Costs) -> bool {
    below(own, others, lambda, greatest(of_n(costs, n)))
}

/// Faults of the rule, each with its name.
const FAULTS: [(&str, Rule); 14] = [
    ("<= for <", |own, others, lambda, n, costs| {
        let cap = greatest(of_n(costs, n));
        others.iter().all(|&other| own + lambda * cap <= other)
    }),
    (
        "<= at the first other alone",
        |own, others, lambda, n, costs| {
            let cap = greatest(of_n(costs, n));
            own + lambda * cap <= others[0] && below(own, &others[1..], lambda, cap)
        },
    ),
    (
        "the cap of the n before",
        |own, others, lambda, n, costs| {
            below(own, others, lambda, greatest(of_n(costs, (n - 1).max(2))))
        },
    ),
    (
        "the cap of the n behind",
        |own, others, lambda, n, costs| {
            below(own, others, lambda, greatest(of_n(costs, (n + 1).min(8))))
        },
    ),
    ("the cap of n = 2", |own, others, lambda, _, costs| {
        below(own, others, lambda, greatest(of_n(costs, 2)))
    }),
    ("the cap of n = 8", |own, others, lambda, _, costs| {
        below(own, others, lambda, greatest(of_n(costs, 8)))
    }),
    (
        "the cap of the first context",
        |own, others, lambda, n, costs| below(own, others, lambda, greatest(&of_n(costs, n)[..8])),
    ),
    (
        "the cap without the last context",
        |own, others, lambda, n, costs| below(own, others, lambda, greatest(&of_n(costs, n)[..32])),
    ),
    (
        "the cap of the first rank",
        |own, others, lambda, n, costs| {
            below(
                own,
                others,
                lambda,
                greatest(of_n(costs, n).iter().step_by(8)),
            )
        },
    ),
    (
        "the cap without the first place",
        |own, others, lambda, n, costs| below(own, others, lambda, greatest(&of_n(costs, n)[1..])),
    ),
    (
        "the cap without the last rank",
        |own, others, lambda, n, costs| {
            let used = of_n(costs, n).chunks(8).flat_map(|ranks| &ranks[..n - 1]);
            below(own, others, lambda, greatest(used))
        },
    ),
    ("no lambda", |own, others, _, n, costs| {
        below(own, others, 1.0, greatest(of_n(costs, n)))
    }),
    ("no cap", |own, others, lambda, _, _| {
        below(own, others, lambda, 0.0)
    }),
    ("in f64", |own, others, lambda, n, costs| {
        let cap = f64::from(greatest(of_n(costs, n)));
        let least = f64::from(own) + f64::from(lambda) * cap;
        others.iter().all(|&other| least < f64::from(other))
    }),
];

/// The index that a rule settles at a place, else the one that the original chooses there.
fn chosen(block: &Block, palette: &Palette, place: usize, rule: Rule) -> u8 {
    let n = palette.colors.len();
    let distance = |index: usize| {
        let error = block.samples[place] - f32::from(palette.colors[index]);
        error * error
    };
    let settled = |index: &usize| {
        let others = (0..n).filter(|other| other != index).map(distance);
        let others: Vec<f32> = others.collect();
        rule(distance(*index), &others, block.lambda, n, &block.costs)
    };
    if let Some(index) = (0..n).find(settled) {
        return index as u8;
    }
    let (y, x) = (place / block.w, place % block.w);
    let (ctx, order) = context(&palette.map, block.w, y, x, n);
    let rates = &of_n(&block.costs, n)[8 * ctx..];
    let total = |rank: usize| distance(usize::from(order[rank])) + block.lambda * rates[rank];
    let better = |best: usize, rank: usize| {
        if total(rank) < total(best) {
            rank
        } else {
            best
        }
    };
    order[(0..n).reduce(better).expect("two colours or more")]
}

/// Whether the lines of flag 0 are those that a rule gives. The first cell has no context and is
/// never settled.
fn same_lines(block: &Block, palette: &Palette, rule: Rule) -> bool {
    (1..palette.map.len()).all(|place| {
        let (y, x) = (place / block.w, place % block.w);
        let line = if palette.transposed { x } else { y };
        palette.flags[line] != 0 || chosen(block, palette, place, rule) == palette.map[place]
    })
}

fn searched(block: &Block) -> Option<Found> {
    search(
        &block.samples,
        block.w,
        block.h,
        block.bd,
        block.lambda,
        &block.costs,
    )
}

#[test]
fn each_fault_of_the_rule_is_noticed() {
    let mut noticed = BTreeMap::new();
    for index in 0..COUNT {
        let (block, kinds) = sure_block(6, index);
        let Some(Found { palette, .. }) = searched(&block) else {
            continue;
        };
        assert!(same_lines(&block, &palette, sound), "{index}: {kinds:?}");
        for (name, rule) in FAULTS {
            let same = same_lines(&block, &palette, rule);
            *noticed.entry(name).or_insert(0) += u64::from(!same);
        }
    }
    assert!(
        noticed.values().all(|&times| times >= COUNT / 1000),
        "{noticed:?}"
    );
}

/// The blocks are sound; most have a palette, of each n, and of the n that is meant most of all.
#[test]
fn blocks_are_sound_and_of_each_n() {
    let (mut sizes, mut meant) = (BTreeSet::new(), 0);
    for index in 0..COUNT {
        let (block, kinds) = sure_block(6, index);
        assert_eq!(search_number(&(&block).into()), 0, "{index}: {kinds:?}");
        let found = searched(&block).expect("an accepted block has a palette");
        let n = found.palette.colors.len();
        sizes.insert(n);
        meant += u64::from(n == kinds.n);
    }
    assert!(sizes.into_iter().eq(2..=8));
    assert!(meant > COUNT / 2, "{meant}");
}

#[test]
fn requests_are_damaged_as_others_are() {
    let requests = (0..COUNT).map(|index| sure_request(6, index));
    let numbers: BTreeSet<u32> = requests
        .map(|(r, _, _)| search_number(&r.asked()))
        .collect();
    assert!(numbers.into_iter().eq(0..=7));
}
