//! Every block is in one strip, and no thread is left without work.

use super::super::{area, Area};
use super::{Shares, MAX_STRIP};

const SHEETS: [(usize, usize); 8] = [
    (1, 1),
    (2480, 3508),
    (2480, 64),
    (2480, 1),
    (1, 700),
    (65, 130),
    (4097, 20),
    (100_000, 3),
];

fn for_all(check: impl Fn(Shares, (usize, usize), usize, usize)) {
    for sides in SHEETS {
        for side in [5, 16, 63, 64] {
            for threads in [0, 1, 2, 3, 8, 256, usize::MAX] {
                check(Shares::new(sides, side, threads), sides, side, threads);
            }
        }
    }
}

fn all_strips(shares: Shares) -> impl Iterator<Item = Vec<Area>> {
    let strips = (0..shares.count()).flat_map(move |place| shares.strips(place));
    strips.map(|strip| strip.collect())
}

#[test]
fn strips_have_all_blocks_in_their_order() {
    for_all(|shares, (width, height), side, threads| {
        let blocks = area::blocks(width, height, side);
        let same = all_strips(shares).flatten().eq(blocks);
        assert!(same, "{width} by {height}, side {side}, {threads} threads");
    });
}

#[test]
fn strips_are_of_one_row_and_no_longer_than_they_may() {
    for_all(|shares, _, _, _| {
        assert!(shares.in_strip <= MAX_STRIP);
        let strips = all_strips(shares).inspect(|strip| {
            assert!((1..=shares.in_strip).contains(&strip.len()));
            assert!(strip.iter().all(|area| area.y == strip[0].y));
        });
        assert!(strips.count() >= shares.count());
    });
}

/// A part is of the row that its place says.
#[test]
fn rows_have_their_parts() {
    for_all(|shares, (_, height), side, _| {
        assert_eq!(shares.rows, height.div_ceil(side));
        for place in 0..shares.count() {
            let area = shares.strips(place).flatten().next().unwrap();
            assert_eq!(area.y, place / shares.in_row * side);
        }
    });
}

#[test]
fn each_thread_has_a_share_where_there_are_blocks_enough() {
    for_all(|shares, (width, height), side, threads| {
        let blocks = width.div_ceil(side) * height.div_ceil(side);
        assert!(shares.count() >= threads.min(256).min(blocks));
    });
    // One row of 39 blocks.
    assert_eq!(Shares::new((2480, 64), 64, 2).count(), 8);
}

/// Up to 64 blocks, or all that a part has: 39 blocks, and 5 of a row that is cut into eight.
#[test]
fn how_long_strips_are() {
    let in_strip = |sides, side, threads| Shares::new(sides, side, threads).in_strip;
    assert_eq!(in_strip((2480, 3508), 1, 2), 64);
    assert_eq!(in_strip((2480, 3508), 38, 2), 64);
    assert_eq!(in_strip((2480, 3508), 64, 2), 39);
    assert_eq!(in_strip((2480, 64), 64, 2), 5);
}

/// Where the rows are enough none is cut: 55 rows, and 3,508 of 2,480 blocks each.
#[test]
fn rows_are_whole_where_they_are_enough() {
    for threads in [1, 2, 8, 13] {
        assert_eq!(Shares::new((2480, 3508), 64, threads).in_row, 1);
        assert_eq!(Shares::new((2480, 3508), 1, threads).in_row, 1);
    }
    assert_eq!(Shares::new((2480, 3508), 64, 14).in_row, 2);
}
