//! The generators make what they are named after, and only what document 01 accepts.

use palette_oracle::check::{context_number, level, levels, line, list_number, search_number, top};
use palette_oracle::generate::blocks::block;
use palette_oracle::generate::caches::{cache, CacheKind};
use palette_oracle::generate::contexts::corner;
use palette_oracle::generate::costs::CostKind;
use palette_oracle::generate::lambdas::Lambda;
use palette_oracle::generate::layouts::Layout;
use palette_oracle::generate::levels::{Fraction, Spacing};
use palette_oracle::generate::palettes::{palette, CellKind, FlagKind};
use palette_oracle::{context, list, pred, search, unpack, Block, Found, Palette};
use std::collections::BTreeSet;

const BLOCKS: u64 = 4000;

fn blocks() -> impl Iterator<Item = Block> {
    (0..BLOCKS).map(|index| block(7, index).0)
}

fn found(b: &Block) -> Option<Found> {
    search(&b.samples, b.w, b.h, b.bd, b.lambda, &b.costs)
}

fn some_block(holds: impl Fn(&Block) -> bool) -> bool {
    blocks().any(|b| holds(&b))
}

#[test]
fn the_original_declines_exactly_where_document_01_does() {
    let mut numbers = BTreeSet::new();
    for b in blocks() {
        let number = search_number(&(&b).into());
        numbers.insert(number);
        assert_eq!(found(&b).is_none(), number != 0);
    }
    assert_eq!(numbers, BTreeSet::from([0, 8, 9, 10]));
}

#[test]
fn every_kind_of_block_is_drawn() {
    let kinds: Vec<_> = (0..BLOCKS).map(|index| block(7, index).1).collect();
    assert!(Spacing::ALL
        .iter()
        .all(|&kind| kinds.iter().any(|k| k.spacing == kind)));
    assert!(Layout::ALL
        .iter()
        .all(|&kind| kinds.iter().any(|k| k.layout == kind)));
    assert!(Fraction::ALL
        .iter()
        .all(|&kind| kinds.iter().any(|k| k.fraction == kind)));
    assert!(Lambda::ALL
        .iter()
        .all(|&kind| kinds.iter().any(|k| k.lambda == kind)));
    assert!(CostKind::ALL
        .iter()
        .all(|&kind| kinds.iter().any(|k| k.costs == kind)));
}

#[test]
fn sides_depths_and_numbers_of_levels_are_met() {
    for side in [1, 2, 14, 15, 16, 17, 62, 63, 64] {
        assert!(
            some_block(|b| b.w == side) && some_block(|b| b.h == side),
            "side {side}"
        );
    }
    for sides in [
        (16, 1),
        (1, 16),
        (64, 64),
        (63, 63),
        (64, 1),
        (1, 64),
        (15, 15),
        (16, 16),
    ] {
        assert!(some_block(|b| (b.w, b.h) == sides), "sides {sides:?}");
    }
    for bd in 8..=12 {
        assert!(some_block(|b| b.bd == bd));
    }
    let counts: BTreeSet<usize> = blocks().map(|b| levels(&b.samples).len()).collect();
    assert!((1..=34).all(|count| counts.contains(&count)), "{counts:?}");
    assert!(counts.contains(&40));
}

#[test]
fn samples_reach_the_edges() {
    let has =
        |sample: f32| some_block(|b| b.samples.iter().any(|s| s.to_bits() == sample.to_bits()));
    assert!(has(0.0) && has(-0.0) && has(0.5) && has(0.499_999_97) && has(1.5) && has(255.0));
    assert!(some_block(|b| b.samples.contains(&(top(b.bd) as f32))));
    assert!(some_block(|b| b
        .samples
        .contains(&(top(b.bd) as f32 - 0.5))));
}

#[test]
fn lambdas_and_costs_reach_the_edges() {
    let has = |bits: u32| some_block(|b| b.lambda.to_bits() == bits);
    assert!(has(0) && has(1 << 31) && has(1) && has(1_048_576f32.to_bits()));
    assert!(some_block(|b| b.lambda.is_subnormal()));
    assert!(some_block(|b| b
        .costs
        .iter()
        .all(|cost| cost.is_subnormal() || *cost == 0.0)));
    assert!(some_block(|b| b
        .costs
        .iter()
        .all(|cost| cost.to_bits() == 0)));
    assert!(some_block(|b| b
        .costs
        .iter()
        .all(|cost| cost.to_bits() == 1 << 31)));
    assert!(some_block(|b| b.costs.iter().all(|&cost| cost == 32.0)));
    assert!(blocks().filter_map(|b| found(&b)).any(|f| f.bits < 0.0));
}

/// A sample as near to one colour as to another, with no third nearer.
fn has_tied_colors(b: &Block, found: &Found) -> bool {
    let colors = &found.palette.colors;
    b.samples.iter().any(|&sample| {
        let distance = |&color: &u16| (sample - f32::from(color)).abs();
        let least = colors.iter().map(distance).fold(f32::INFINITY, f32::min);
        colors
            .iter()
            .filter(|color| distance(color) == least)
            .count()
            > 1
    })
}

#[test]
fn answers_are_of_every_sort() {
    let answers: Vec<_> = blocks().filter_map(|b| found(&b).map(|f| (b, f))).collect();
    let share = |holds: &dyn Fn(&Block, &Found) -> bool| {
        answers.iter().filter(|(b, f)| holds(b, f)).count() * 100 / answers.len()
    };
    for n in 2..=8 {
        assert!(share(&|_, f| f.palette.colors.len() == n) > 0, "n = {n}");
    }
    for flag in 0..=2 {
        assert!(
            share(&|_, f| f.palette.flags.contains(&flag)) >= 10,
            "flag {flag}"
        );
    }
    assert!(share(&|_, f| f.palette.transposed) >= 3);
    assert!(share(&has_tied_colors) >= 2);
    let accepted = |f: &Found| list_number(&f.palette, &[]) == 0;
    assert!(answers.iter().all(|(_, f)| accepted(f)));
}

fn listed() -> impl Iterator<Item = (Palette, Vec<u16>)> {
    (0..BLOCKS).map(|index| {
        let (palette, _) = palette(8, index);
        let (cache, _) = cache(8, index, &palette);
        (palette, cache)
    })
}

#[test]
fn palettes_are_accepted_and_of_every_kind() {
    assert!(listed().all(|(p, cache)| list_number(&p, &cache) == 0));
    let kinds: Vec<_> = (0..BLOCKS).map(|index| palette(8, index).1).collect();
    assert!(kinds.contains(&None));
    let kinds: Vec<_> = kinds.into_iter().flatten().collect();
    assert!(Spacing::ALL
        .iter()
        .all(|&kind| kinds.iter().any(|k| k.0 == kind)));
    assert!(FlagKind::ALL
        .iter()
        .all(|&kind| kinds.iter().any(|k| k.1 == kind)));
    assert!(CellKind::ALL
        .iter()
        .all(|&kind| kinds.iter().any(|k| k.2 == kind)));
    for (side, n, bd) in [(1, 2, 8), (15, 5, 9), (16, 7, 10), (63, 8, 11), (64, 3, 12)] {
        assert!(listed().any(|(p, _)| p.w == side && p.colors.len() == n && p.bd == bd));
    }
}

/// Flag, cells and cells before of every line but the first, where lines have two cells or more.
fn later_lines() -> Vec<(u8, Vec<u8>, Vec<u8>)> {
    let of = |p: Palette| {
        let later = if p.w.min(p.h) > 1 {
            1..p.flags.len()
        } else {
            0..0
        };
        later.map(move |l| (p.flags[l], line(&p, l), line(&p, l - 1)))
    };
    listed().take(500).flat_map(|(p, _)| of(p)).collect()
}

#[test]
fn lines_carry_flags_they_need_not_carry() {
    let lines = later_lines();
    let constant = |cells: &[u8]| cells.iter().all(|&index| index == cells[0]);
    assert!(lines
        .iter()
        .any(|(flag, now, _)| *flag == 0 && constant(now)));
    assert!(lines
        .iter()
        .any(|(flag, now, before)| *flag == 0 && now == before));
    assert!(lines
        .iter()
        .any(|(flag, now, before)| *flag == 1 && now == before));
    assert!(lines
        .iter()
        .any(|(flag, now, _)| *flag == 2 && !constant(now)));
    assert!(listed().any(|(p, _)| p.transposed && p.flags.contains(&2)));
}

#[test]
fn caches_are_of_every_kind() {
    let kinds: Vec<_> = (0..BLOCKS)
        .map(|i| cache(8, i, &palette(8, i).0).1)
        .collect();
    assert!(CacheKind::ALL.iter().all(|kind| kinds.contains(kind)));
    assert!(listed().any(|(p, cache)| cache.iter().any(|&c| u32::from(c) > top(p.bd))));
    assert!(listed().any(|(_, cache)| cache.len() == 64));
    assert!(listed().any(|(_, cache)| cache.is_empty()));
    let repeats = |cache: &[u16], color| cache.iter().filter(|&&c| c == color).count() > 1;
    assert!(listed().any(|(p, cache)| p.colors.iter().any(|&c| repeats(&cache, c))));
}

#[test]
fn lists_hold_every_context_and_rank() {
    let words: BTreeSet<u32> = listed()
        .flat_map(|(p, cache)| list(&p, &cache))
        .filter(|&w| unpack(w).0 == 5)
        .collect();
    let sent = |n: u32, context: u32, rank: u32| {
        words.contains(&((5 << 24) + (((n - 2) * 5 + context) << 16) + rank))
    };
    for (n, context) in (2..=8).flat_map(|n| (0..5).map(move |context| (n, context))) {
        // With two colours no three neighbours all differ.
        let possible = (n, context) != (2, 1);
        assert!(
            (0..n).all(|rank| sent(n, context, rank) == possible),
            "n = {n}, {context}"
        );
    }
}

#[test]
fn pred_gives_the_colors() {
    for (p, _) in listed().take(500) {
        let levels: Vec<u16> = pred(&p).iter().map(|&value| level(value) as u16).collect();
        assert!(p
            .map
            .iter()
            .map(|&index| p.colors[usize::from(index)])
            .eq(levels));
    }
}

#[test]
fn contexts_are_accepted_and_of_every_number() {
    let mut numbers = BTreeSet::new();
    for index in 0..BLOCKS {
        let (c, _) = corner(9, index);
        assert_eq!(context_number(&c), 0);
        let (number, order) = context(&c.map, c.stride, c.y, c.x, c.n);
        let indices: BTreeSet<u8> = order[..c.n].iter().copied().collect();
        assert!(indices.into_iter().eq(0..c.n as u8) && order[c.n..].iter().all(|&i| i == 0));
        numbers.insert((number, c.n));
    }
    // With two colours no three neighbours all differ.
    assert_eq!(numbers.len(), 5 * 7 - 1);
}
