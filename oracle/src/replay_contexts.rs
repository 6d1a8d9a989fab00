//! The cells that the crate `replay_contexts` is run on, and the lines that it must print.

use crate::generate::contexts::{asked_corner, CornerDamage, CornerKind};
use crate::original::Corner;
use crate::ranks::ContextAnswer;
use crate::replay::{hash, put_pair};

/// What the crate's buffer holds.
const PLACES: usize = 600;

/// From here on a number of two bytes stands for one as far below the greatest `usize` as it is
/// itself below 65,535.
const FAR: u16 = 65_280;

/// Of the cells that are not damaged only each so many-th is taken.
const SOUND: u64 = 8;

pub struct ReplayedCorner {
    pub corner: Corner,
    pub kind: CornerKind,
    pub damage: Option<CornerDamage>,
    pub answer: ContextAnswer,
}

/// The first cells of a seed whose numbers fit the form.
pub fn replayed_corners(seed: u64, count: usize) -> impl Iterator<Item = ReplayedCorner> {
    (0..)
        .map(move |index| (index, drawn(seed, index)))
        .filter(|(index, replayed)| replayed.damage.is_some() || index % SOUND == 0)
        .map(|(_, replayed)| replayed)
        .filter(|replayed| fits(&replayed.corner))
        .take(count)
}

fn drawn(seed: u64, index: u64) -> ReplayedCorner {
    let (corner, kind, damage) = asked_corner(seed, index);
    let answer = ContextAnswer::due(&corner);
    ReplayedCorner {
        corner,
        kind,
        damage,
        answer,
    }
}

fn fits(corner: &Corner) -> bool {
    corner.map.len() <= PLACES && numbers(corner).iter().all(|&number| pair(number).is_some())
}

fn numbers(corner: &Corner) -> [usize; 4] {
    [corner.stride, corner.y, corner.x, corner.n]
}

fn pair(number: usize) -> Option<u16> {
    let near = u16::try_from(number).ok().filter(|&near| near < FAR);
    let below = u16::try_from(usize::MAX - number).ok();
    let far = below.map(|below| u16::MAX - below);
    near.or(far.filter(|&far| far >= FAR))
}

/// The bytes of a cell: ten of fixed places, then its map.
pub fn bytes(replayed: &ReplayedCorner) -> Vec<u8> {
    let corner = &replayed.corner;
    let mut bytes = vec![];
    put_pair(&mut bytes, corner.map.len() as u16);
    for number in numbers(corner) {
        put_pair(&mut bytes, pair(number).expect("the cell fits the form"));
    }
    bytes.extend(&corner.map);
    bytes
}

/// The place is counted from 1.
pub fn line(place: usize, replayed: &ReplayedCorner) -> String {
    let fields = replayed.answer.fields().map(|field| field.to_string());
    format!("{place} {} {}", replayed.answer.number, fields.join(" "))
}

/// What is printed ahead of the cells' lines: for each n and neighbour a hash of the answers on
/// the top row, in the left column, and inside with it on the left and each top and diagonal.
pub fn all_neighbours() -> String {
    let pairs = (0..=10).flat_map(|n| (0..=8).map(move |neighbour| (n, neighbour)));
    pairs
        .map(|(n, neighbour)| format!("{n} {neighbour} {}\n", hash_around(n, neighbour)))
        .collect()
}

fn hash_around(n: usize, neighbour: u8) -> u64 {
    let corner = |map: &[u8], stride: usize, y: usize, x: usize| Corner {
        map: map.to_vec(),
        stride,
        y,
        x,
        n,
    };
    let edges = [corner(&[neighbour], 2, 0, 1), corner(&[neighbour], 1, 1, 0)];
    let around = (0..=8).flat_map(|top| (0..=8).map(move |diagonal| (top, diagonal)));
    let inside = around.map(|(top, diagonal)| corner(&[diagonal, top, neighbour], 2, 1, 1));
    hash(edges.into_iter().chain(inside).flat_map(|corner| {
        let answer = ContextAnswer::due(&corner);
        [answer.number].into_iter().chain(answer.fields())
    }))
}
