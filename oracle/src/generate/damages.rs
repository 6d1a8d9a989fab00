//! What the requests of `list`, `pred`, `search`, `search_strip` and `read` have in common: spare
//! room and damages.

use super::random::Random;

/// About one request in ten is damaged. A second damage, in a fourth of these, shows which of two
/// numbers comes first.
pub fn draw<T: Copy>(random: &mut Random, kinds: &[T]) -> Vec<T> {
    let count = match random.below(40) {
        0..=2 => 1,
        3 => 2,
        _ => 0,
    };
    (0..count).map(|_| random.pick(kinds)).collect()
}

/// Places more than needed; none half of the time.
pub fn spare(random: &mut Random) -> usize {
    random.pick(&[0, 0, 0, 1, 2, 5])
}

/// One side out of range, also by so much that a product of sides would overflow.
pub fn damage_side(random: &mut Random, w: &mut usize, h: &mut usize) {
    let side = random.pick(&[0, 65, 66, 128, 255, 1 << 32, usize::MAX]);
    if random.one_in(2) {
        *w = side;
    } else {
        *h = side;
    }
}

/// What a side out of range may ask for at most, of samples and of room.
pub const MOST: usize = 4240;

/// Fewer places than needed, which are `MOST` at most, as a side may be out of range.
pub fn lacking(random: &mut Random, needed: usize) -> usize {
    fewer(random, needed.min(MOST))
}

/// One place fewer, or any number fewer.
pub fn fewer(random: &mut Random, needed: usize) -> usize {
    let needed = needed.max(1);
    if random.one_in(2) {
        needed - 1
    } else {
        random.below(needed)
    }
}

/// A depth out of range; shifts by some of these would overflow.
pub fn depth(random: &mut Random) -> u32 {
    random.pick(&[0, 7, 13, 16, 31, 32, 40, u32::MAX])
}

/// One place more or one fewer.
pub fn stretch<T: Default>(random: &mut Random, cells: &mut Vec<T>) {
    if random.one_in(2) {
        cells.push(T::default());
    } else {
        cells.pop();
    }
}

pub fn put_anywhere<T>(random: &mut Random, cells: &mut [T], value: T) {
    if !cells.is_empty() {
        cells[random.below(cells.len())] = value;
    }
}
