//! Cells to ask the context of: drawn ones, and all of small size.

use super::random::{Beside, Random};
use crate::check::neighbours;
use crate::original::Corner;

kinds! {
    CornerKind {
        TopRow = "top-row",
        LeftColumn = "left-column",
        Inner = "inner",
        HugeStride = "huge-stride",
    }
}

pub fn corner(seed: u64, index: u64) -> (Corner, CornerKind) {
    let random = &mut Random::new(seed, index);
    let kind = random.pick(&[
        CornerKind::TopRow,
        CornerKind::LeftColumn,
        CornerKind::Inner,
        CornerKind::Inner,
        CornerKind::Inner,
        CornerKind::HugeStride,
    ]);
    let n = random.between(2, 8);
    let (stride, y, x) = cell(random, kind);
    let mut corner = Corner {
        map: vec![],
        stride,
        y,
        x,
        n,
    };
    corner.map = map(random, &corner);
    (corner, kind)
}

kinds! {
    /// What is wrong in a damaged question. Some damages happen to do no harm.
    CornerDamage {
        FirstCell = "first-cell",
        Column = "column",
        Stride = "stride",
        Count = "count",
        ShortMap = "short-map",
        Neighbour = "neighbour",
        FarRow = "far-row",
    }
}

/// A corner, damaged about one time in ten.
pub fn asked_corner(seed: u64, index: u64) -> (Corner, CornerKind, Option<CornerDamage>) {
    let (mut corner, kind) = corner(seed, index);
    let random = &mut Random::beside(seed, index, Beside::Damage);
    if !random.one_in(10) {
        return (corner, kind, None);
    }
    let damage = random.pick(CornerDamage::ALL);
    damage_corner(random, damage, &mut corner);
    (corner, kind, Some(damage))
}

fn damage_corner(random: &mut Random, damage: CornerDamage, corner: &mut Corner) {
    let used = neighbours(corner);
    let last = used.iter().max().map_or(0, |&place| place as usize);
    match damage {
        CornerDamage::FirstCell => (corner.y, corner.x) = (0, 0),
        CornerDamage::Column => {
            let further = random.pick(&[0, 1, 7, usize::MAX]);
            corner.x = corner.stride.saturating_add(further);
        }
        CornerDamage::Stride => corner.stride = random.pick(&[0, corner.x, 1 << 63]),
        CornerDamage::Count => corner.n = random.pick(&[0, 1, 9, 255, 256, 258, usize::MAX]),
        CornerDamage::ShortMap => corner.map.truncate(random.between(0, last)),
        CornerDamage::Neighbour => {
            let place = random.pick(&used) as usize;
            corner.map[place] = random.between(corner.n, 255) as u8;
        }
        CornerDamage::FarRow => corner.y = random.pick(&[65, 1 << 32, 1 << 63, usize::MAX]),
    }
}

fn cell(random: &mut Random, kind: CornerKind) -> (usize, usize, usize) {
    let stride = random.between(2, 66);
    match kind {
        CornerKind::TopRow => (stride, 0, random.between(1, stride - 1)),
        CornerKind::LeftColumn => (random.between(1, 66), random.between(1, 64), 0),
        CornerKind::Inner => (stride, random.between(1, 64), random.between(1, stride - 1)),
        // The second row's first cell looks only at place 0, the first row only at x - 1.
        CornerKind::HugeStride => {
            let stride = random.pick(&[usize::MAX, usize::MAX / 2 + 1, 1 << 32]);
            let (y, x) = random.pick(&[(1, 0), (0, 1), (0, 63)]);
            (stride, y, x)
        }
    }
}

/// A map that reaches the last used neighbour, and half of the time ends there. Cells that the
/// context does not use hold anything, also what is no index.
fn map(random: &mut Random, corner: &Corner) -> Vec<u8> {
    let used: Vec<usize> = neighbours(corner)
        .iter()
        .map(|&place| place as usize)
        .collect();
    let last = used.iter().max().expect("no cell at (0,0)");
    let beyond = if random.one_in(2) {
        0
    } else {
        random.between(1, 70)
    };
    let mut map: Vec<u8> = (0..last + 1 + beyond)
        .map(|_| random.bits() as u8)
        .collect();
    let few = [random.below(corner.n), random.below(corner.n)];
    for place in used {
        let index = if random.one_in(3) {
            random.below(corner.n)
        } else {
            random.pick(&few)
        };
        map[place] = index as u8;
    }
    map
}

/// Values of a neighbour: all indices, and others, with some that a cut would make an index.
const VALUES: [u8; 16] = [0, 1, 2, 3, 4, 5, 6, 7, 8, 9, 15, 16, 64, 127, 128, 255];

/// n that are allowed and n that are not, with some that a cut would make right.
const COUNTS: [usize; 15] = [2, 3, 4, 5, 6, 7, 8, 0, 1, 9, 10, 16, 256, 258, usize::MAX];

/// Stride, row and column; at the last four there is no context.
const PLACES: [(usize, usize, usize); 20] = [
    (2, 1, 1),
    (3, 1, 1),
    (3, 2, 2),
    (4, 1, 2),
    (8, 2, 7),
    (64, 1, 33),
    (65, 1, 64),
    (2, 0, 1),
    (5, 0, 1),
    (5, 0, 3),
    (64, 0, 63),
    (1, 1, 0),
    (1, 3, 0),
    (2, 1, 0),
    (5, 2, 0),
    (64, 2, 0),
    (5, 0, 0),
    (3, 0, 3),
    (5, 2, 5),
    (0, 1, 0),
];

/// What a cell holds that is no neighbour.
const ELSEWHERE: u8 = 254;

/// How many there are of `every_corner`.
pub const EVERY_CORNER: u64 = (VALUES.len().pow(3) * COUNTS.len() * PLACES.len() * 2) as u64;

/// Each left, top and diagonal of the values with each n at each place, in a map that ends at the
/// last neighbour and in one that goes on.
pub fn every_corner(index: u64) -> Corner {
    let mut rest = index as usize;
    let mut digit = |of: usize| {
        let digit = rest % of;
        rest /= of;
        digit
    };
    let [left, top, diagonal] = [0; 3].map(|_| VALUES[digit(VALUES.len())]);
    let n = COUNTS[digit(COUNTS.len())];
    let (stride, y, x) = PLACES[digit(PLACES.len())];
    let mut corner = Corner {
        map: vec![ELSEWHERE; (y + 2) * stride],
        stride,
        y,
        x,
        n,
    };
    set_neighbours(&mut corner, left, top, diagonal);
    if digit(2) == 0 {
        let last = neighbours(&corner).into_iter().max();
        corner
            .map
            .truncate(last.map_or(0, |place| place as usize + 1));
    }
    corner
}

/// On an edge the values of neighbours that are not there go to where a wrong reading would look,
/// if the map has that place. A neighbour that is there is set last.
fn set_neighbours(corner: &mut Corner, left: u8, top: u8, diagonal: u8) {
    let cell = corner.y * corner.stride + corner.x;
    let places = match corner.y {
        0 => [
            (Some(cell), top),
            (Some(cell + corner.stride), diagonal),
            (cell.checked_sub(1), left),
        ],
        _ => [
            (cell.checked_sub(1), left),
            (cell.checked_sub(corner.stride + 1), diagonal),
            (cell.checked_sub(corner.stride), top),
        ],
    };
    for (place, value) in places {
        if let Some(there) = place.and_then(|place| corner.map.get_mut(place)) {
            *there = value;
        }
    }
}
