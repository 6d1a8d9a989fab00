//! The ranks undo the original's order, on every corner of small size and on drawn ones.

use palette_oracle::check::context_number;
use palette_oracle::generate::contexts::{corner, every_corner, EVERY_CORNER};
use palette_oracle::ranks::{ranks, ContextAnswer};
use palette_oracle::{context, Corner};
use std::collections::BTreeSet;

/// The place of each index in the original's order; the other way round, each rank's index.
fn undo(corner: &Corner) {
    let (_, order) = context(&corner.map, corner.stride, corner.y, corner.x, corner.n);
    let (order, ranks) = (&order[..corner.n], ranks(corner));
    for index in 0..8u8 {
        let place = order.iter().position(|&there| there == index);
        assert_eq!(usize::from(ranks[usize::from(index)]), place.unwrap_or(0));
    }
    let back = order
        .iter()
        .map(|&index| usize::from(ranks[usize::from(index)]));
    assert!(back.eq(0..corner.n), "{corner:?}");
}

#[test]
fn every_corners_ranks_undo_its_order() {
    let mut accepted = BTreeSet::new();
    for index in 0..EVERY_CORNER {
        let corner = every_corner(index);
        if context_number(&corner) == 0 {
            undo(&corner);
            accepted.insert((ContextAnswer::due(&corner).fields(), corner.n));
        }
    }
    // Of each n: one order for each first index at context 0 and at context 4, n (n - 1) pairs at
    // context 3 and at context 2, and n (n - 1) (n - 2) triples at context 1.
    let answers = |n: usize| 2 * n + 2 * n * (n - 1) + n * (n - 1) * (n - 2);
    assert_eq!(accepted.len(), (2..=8).map(answers).sum::<usize>());
}

#[test]
fn drawn_corners_ranks_undo_their_order() {
    for index in 0..20_000 {
        undo(&corner(4, index).0);
    }
}

/// The corners are all different questions, and three neighbours of n indices are all there.
#[test]
fn every_corner_is_another() {
    let mut inner = BTreeSet::new();
    for index in 0..EVERY_CORNER {
        let c = every_corner(index);
        let at = |y: usize, x: usize| c.map.get(y * c.stride + x).copied();
        if context_number(&c) == 0 && c.y > 0 && c.x > 0 {
            let around = [at(c.y, c.x - 1), at(c.y - 1, c.x), at(c.y - 1, c.x - 1)];
            assert!(inner.insert((c.stride, c.y, c.x, c.n, c.map.len(), around)));
        }
    }
    let triples: usize = (2..=8usize).map(|n| n.pow(3)).sum();
    assert_eq!(inner.len(), triples * 7 * 2);
}

#[test]
fn an_answer_in_17_places() {
    // Left 3, top 1, diagonal 3 of five indices.
    let corner = Corner {
        map: vec![3, 1, 3],
        stride: 2,
        y: 1,
        x: 1,
        n: 5,
    };
    let fields = [2, 3, 1, 0, 2, 4, 0, 0, 0, 2, 1, 3, 0, 4, 0, 0, 0];
    let due = ContextAnswer::due(&corner);
    assert_eq!((due.number, due.fields()), (0, fields));
    let refused = ContextAnswer::due(&Corner { n: 3, ..corner });
    assert_eq!((refused.number, refused.fields()), (18, [0; 17]));
}
