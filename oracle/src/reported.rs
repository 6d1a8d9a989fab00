//! The text that the crate `report` is run on.

use crate::generate::random::{Beside, Random};
use crate::generate::reports::{any, greatest, Lines};
use crate::generate::requests::Damage;
use crate::listing_text::text_of;

/// Their number has no divisor in common with the steps below, so that each meets each.
const SIDES: &[(usize, usize)] = &[
    (4, 2),
    (1, 1),
    (16, 2),
    (1, 16),
    (8, 3),
    (64, 1),
    (5, 5),
    (1, 64),
    (2, 3),
    (63, 1),
    (3, 9),
];

/// Each fifth palette is refused by 11, each seventh by 15. Each ninth is of the greatest length, so
/// that the text is several times as long as a reader's buffer.
const COLORS_STEP: u64 = 5;
const LINES_STEP: u64 = 7;
const GREATEST_STEP: u64 = 9;

/// So many palettes, then the first half of another's text.
pub fn reported(seed: u64, count: u64) -> Vec<u8> {
    let text = |place| text_of(&palette(seed, place));
    let mut text_of_all: Vec<u8> = (0..count).flat_map(text).collect();
    let tail = text(count);
    text_of_all.extend(&tail[..tail.len() / 2]);
    text_of_all
}

fn palette(seed: u64, place: u64) -> Lines {
    let random = &mut Random::beside(seed, place, Beside::Report);
    if place % GREATEST_STEP == GREATEST_STEP - 1 {
        return greatest(random, &[]);
    }
    let sides = SIDES[place as usize % SIDES.len()];
    let damages = damages(random, place);
    any(random, sides, &damages)
}

fn damages(random: &mut Random, place: u64) -> Vec<Damage> {
    if place % COLORS_STEP == COLORS_STEP - 1 {
        vec![random.pick(&[Damage::ColorOrder, Damage::ColorAboveTop])]
    } else if place % LINES_STEP == LINES_STEP - 1 {
        vec![random.pick(&[Damage::Index, Damage::Flag, Damage::FirstFlag])]
    } else {
        vec![]
    }
}
