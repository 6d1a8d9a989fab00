//! Contexts: the cases of document 01 and its number 18; document 02's ranks, which undo the order.

mod common;

use common::{cases, Random};
use palette_station::{context, Context, Refusal};

/// The context at the lower right of a 2 by 2 map, and the order of four indices there.
fn inner(diagonal: u8, top: u8, left: u8) -> (u8, Vec<u8>) {
    let found = context(&[diagonal, top, left], 2, 1, 1, 4).unwrap();
    (found.value(), found.order().to_vec())
}

#[test]
fn neighbours_of_an_inner_cell() {
    assert_eq!(inner(2, 2, 2), (4, vec![2, 0, 1, 3]));
    assert_eq!(inner(0, 3, 3), (3, vec![3, 0, 1, 2]));
    assert_eq!(inner(3, 1, 3), (2, vec![3, 1, 0, 2]));
    assert_eq!(inner(1, 1, 3), (2, vec![1, 3, 0, 2]));
    assert_eq!(inner(0, 1, 2), (1, vec![2, 1, 0, 3]));
}

#[test]
fn edges() {
    let top = context(&[1, 2], 8, 0, 2, 3).unwrap();
    assert_eq!((top.value(), top.order()), (0, &[2, 0, 1][..]));
    let left = context(&[1, 2], 2, 1, 0, 3).unwrap();
    assert_eq!((left.value(), left.order()), (0, &[1, 0, 2][..]));
}

/// Each index below n has one rank below n, and each rank one index; from n upward there is none.
fn undo_each_other(found: &Context, n: u8) {
    assert_eq!(found.order().len(), usize::from(n));
    for below in 0..n {
        let rank = found.rank_of(below).unwrap();
        let index = found.index_at(below).unwrap();
        assert!(rank < n && index < n);
        assert_eq!(found.index_at(rank), Some(below));
        assert_eq!(found.rank_of(index), Some(below));
        assert_eq!(found.order()[usize::from(below)], index);
    }
    for past in n..=u8::MAX {
        assert_eq!((found.rank_of(past), found.index_at(past)), (None, None));
    }
}

/// The neighbours that come first in the order.
fn firsts_of(left: u8, top: u8, diagonal: u8) -> Vec<u8> {
    match (left == top, left == diagonal, diagonal == top) {
        (true, true, _) => vec![left],
        (true, false, _) => vec![left, diagonal],
        (false, true, _) => vec![left, top],
        (false, false, true) => vec![top, left],
        (false, false, false) => vec![left, top, diagonal],
    }
}

/// The ranks from the neighbours that come first: those, then the others by index.
fn ranks_from(firsts: &[u8], n: u8) -> Vec<Option<u8>> {
    let first = |index: &u8| firsts.iter().position(|there| there == index);
    let before = |index: u8| (0..index).filter(|other| first(other).is_none()).count();
    let rank = |index: u8| first(&index).unwrap_or_else(|| firsts.len() + before(index));
    (0..n).map(|index| Some(rank(index) as u8)).collect()
}

fn ranks_of(found: &Context, n: u8) -> Vec<Option<u8>> {
    (0..n).map(|index| found.rank_of(index)).collect()
}

#[test]
fn ranks_beside_all_neighbours() {
    for n in 2..=8 {
        for key in 0..512 {
            let [diagonal, top, left] = [key / 64, key / 8 % 8, key % 8].map(|v: u16| v as u8);
            let answer = context(&[diagonal, top, left], 2, 1, 1, n.into());
            if [diagonal, top, left].iter().any(|&v| v >= n) {
                assert_eq!(answer, Err(Refusal::CONTEXT));
                continue;
            }
            let found = answer.unwrap();
            let firsts = firsts_of(left, top, diagonal);
            undo_each_other(&found, n);
            assert_eq!(
                ranks_of(&found, n),
                ranks_from(&firsts, n),
                "{left} {top} {diagonal} {n}"
            );
        }
    }
}

#[test]
fn ranks_on_the_edges() {
    for n in 2..=8 {
        for near in 0..n {
            for (y, x) in [(0, 1), (1, 0)] {
                let found = context(&[near, 9, 9], 2, y, x, n.into()).unwrap();
                undo_each_other(&found, n);
                assert_eq!(ranks_of(&found, n), ranks_from(&[near], n));
            }
        }
    }
}

#[test]
fn ranks_in_many_maps() {
    let mut random = Random(1907);
    for _ in 0..cases(300) {
        let n = random.between(2, 8) as u8;
        let (width, height) = (random.between(1, 20), random.between(1, 20));
        let map: Vec<u8> = (0..width * height)
            .map(|_| random.below(n.into()) as u8)
            .collect();
        for place in 1..map.len() {
            let found = context(&map, width, place / width, place % width, n.into()).unwrap();
            undo_each_other(&found, n);
        }
        assert_eq!(context(&map, width, 0, 0, n.into()), Err(Refusal::CONTEXT));
    }
}

#[test]
fn cells_that_are_18() {
    let map = [0, 1, 1, 0];
    let refused = |stride, y, x, n| context(&map, stride, y, x, n) == Err(Refusal::CONTEXT);
    assert!(refused(2, 0, 0, 2));
    assert!(refused(2, 1, 2, 2));
    assert!(refused(0, 1, 0, 2));
    assert!(refused(2, 1, 1, 1));
    assert!(refused(2, 1, 1, 9));
    // A neighbour past the end.
    assert!(refused(2, 3, 1, 2));
    assert!(refused(usize::MAX, usize::MAX, usize::MAX - 1, 2));
    // A neighbour that is no index of two colours.
    assert_eq!(context(&[2], 2, 0, 1, 2), Err(Refusal::CONTEXT));
    // One that is not used may be anything.
    assert!(context(&[1, 200, 200, 200], 2, 1, 0, 2).is_ok());
    assert!(context(&[], 2, 1, 0, 2).is_err());
}
