//! Sides, thick around the places where a rule changes.

use super::random::Random;

kinds! {
    Side {
        One = "1",
        Fifteen = "15",
        Sixteen = "16",
        Middle = "middle",
        SixtyThree = "63",
        SixtyFour = "64",
    }
}

/// The side that a kind is named after half of the time, else one close by.
pub fn side(random: &mut Random) -> usize {
    let (exact, low, high) = match random.pick(Side::ALL) {
        Side::One => (1, 1, 4),
        Side::Fifteen => (15, 12, 15),
        Side::Sixteen => (16, 16, 18),
        Side::Middle => (32, 4, 62),
        Side::SixtyThree => (63, 60, 63),
        Side::SixtyFour => (64, 62, 64),
    };
    if random.one_in(2) {
        exact
    } else {
        random.between(low, high)
    }
}

pub fn sides(random: &mut Random) -> (usize, usize) {
    (side(random), side(random))
}

/// Sides for a search: those refused by 8 are made rare, as there is little to see in them.
pub fn search_sides(random: &mut Random) -> (usize, usize) {
    loop {
        let (w, h) = sides(random);
        if w.max(h) >= 16 || random.one_in(10) {
            return (w, h);
        }
    }
}

/// A few cells; one side is now and then any.
pub fn small_sides(random: &mut Random) -> (usize, usize) {
    let mut sides = [random.between(1, 8), random.between(1, 6)];
    if random.one_in(8) {
        sides[0] = side(random);
    }
    random.shuffle(&mut sides);
    sides.into()
}

/// Blocks of few cells that pass test 8; many of them go into a file of bounded size.
pub const SMALL: &[(usize, usize)] = &[
    (16, 1),
    (1, 16),
    (16, 4),
    (4, 17),
    (1, 64),
    (64, 1),
    (64, 3),
    (3, 64),
    (63, 4),
    (4, 63),
    (17, 16),
    (16, 16),
    (20, 12),
    (12, 20),
];

pub fn depth(random: &mut Random) -> u32 {
    random.between(8, 12) as u32
}
