//! Adapted tables, and another working of their costs, from document 02.

use super::Random;
use palette_station::{ADAPTED, COSTS};

/// A row of a table: where it starts, how many of its places are used, and how many it has.
#[derive(Clone, Copy)]
pub struct Row {
    pub at: usize,
    pub used: usize,
    pub room: usize,
}

/// Mode, size, four rows, then 35 of colours.
pub fn rows() -> Vec<Row> {
    let mut rows = Vec::new();
    let mut at = 0;
    let mut put = |used, room| {
        rows.push(Row { at, used, room });
        at += room;
    };
    put(1, 1);
    put(6, 6);
    (0..4).for_each(|_| put(2, 2));
    (0..35).for_each(|row| put(row / 5 + 1, 7));
    assert_eq!(at, ADAPTED);
    rows
}

/// The 301 costs of a sound table.
pub fn costs_of(table: &[u16]) -> Vec<f32> {
    let mut costs = Vec::new();
    for Row { at, used, room } in rows() {
        let mut before = 32_768;
        for &number in table[at..at + used].iter().chain([&0]) {
            costs.push(cost(before - number));
            before = number;
        }
        costs.resize(costs.len() + room - used, 0.0);
    }
    assert_eq!(costs.len(), COSTS);
    costs
}

/// c / 16, with c the largest number where p^16 ≤ 2^(240 - c).
pub fn cost(p: u16) -> f32 {
    let power = square(u128::from(p).pow(8));
    let meets = |c: &u32| power <= power_of_two(240 - c);
    (0..=240).rev().find(meets).expect("0 does") as f32 / 16.0
}

/// A whole number below 2^256, the high half first.
type Halves = (u128, u128);

/// The square of a number up to 2^120.
fn square(number: u128) -> Halves {
    let (high, low) = (number >> 64, number & u128::from(u64::MAX));
    // Twice the product of both parts, times 2^64.
    let product = high * low;
    let (low, carry) = (low * low).overflowing_add(product << 65);
    (high * high + (product >> 63) + u128::from(carry), low)
}

fn power_of_two(exponent: u32) -> Halves {
    match exponent {
        128.. => (1 << (exponent - 128), 0),
        _ => (0, 1 << exponent),
    }
}

/// A sound table: in each row different numbers, now and then as close as can be.
pub fn drawn_table(random: &mut Random) -> Vec<u16> {
    let mut table = vec![0; ADAPTED];
    for Row { at, used, .. } in rows() {
        let span = [used as u64, 40, 32_767][random.between(0, 2)];
        let lowest = 1 + random.below(32_768 - span);
        let mut numbers = Vec::new();
        while numbers.len() < used {
            let number = (lowest + random.below(span)) as u16;
            if !numbers.contains(&number) {
                numbers.push(number);
            }
        }
        numbers.sort_by(|a, b| b.cmp(a));
        table[at..at + used].copy_from_slice(&numbers);
    }
    table
}

/// The default rows as a table: maroontree's (`src/av2/palette.rs` at commit 7522cbde2f, by
/// Radzivon Bartoshyk, BSD-3-Clause or Apache-2.0), with mode 2723.
#[rustfmt::skip]
pub const DEFAULT_TABLE: [u16; ADAPTED] = [
    2723,
    23989, 17673, 11991, 7865, 4845, 2365,
    10253, 7017,
    28754, 27535,
    29220, 28605,
    19769, 12,

    4628, 0, 0, 0, 0, 0, 0,
    16384, 0, 0, 0, 0, 0, 0,
    24186, 0, 0, 0, 0, 0, 0,
    5355, 0, 0, 0, 0, 0, 0,
    2339, 0, 0, 0, 0, 0, 0,

    7418, 3742, 0, 0, 0, 0, 0,
    21405, 7495, 0, 0, 0, 0, 0,
    25927, 4189, 0, 0, 0, 0, 0,
    11418, 6756, 0, 0, 0, 0, 0,
    2195, 1122, 0, 0, 0, 0, 0,

    9062, 5806, 3708, 0, 0, 0, 0,
    22792, 10252, 5386, 0, 0, 0, 0,
    26077, 7308, 3534, 0, 0, 0, 0,
    13859, 8843, 4365, 0, 0, 0, 0,
    2460, 1692, 950, 0, 0, 0, 0,

    8652, 5811, 4282, 2827, 0, 0, 0,
    23200, 12296, 8474, 3826, 0, 0, 0,
    27062, 7525, 4728, 2362, 0, 0, 0,
    12663, 9786, 5744, 3857, 0, 0, 0,
    1871, 1426, 1002, 569, 0, 0, 0,

    11944, 8541, 6842, 5309, 3502, 0, 0,
    24627, 13779, 11169, 6586, 4192, 0, 0,
    27516, 8428, 6318, 4330, 2143, 0, 0,
    13249, 10073, 7181, 5796, 4345, 0, 0,
    2385, 1878, 1521, 1115, 618, 0, 0,

    11140, 8256, 6895, 5714, 4637, 3229, 0,
    24740, 14504, 12155, 7344, 5656, 3862, 0,
    26279, 10526, 8307, 6374, 4418, 2258, 0,
    10720, 8339, 5778, 4824, 4351, 3194, 0,
    1967, 1563, 1296, 1040, 763, 463, 0,

    10297, 7685, 6784, 5875, 5114, 4018, 2865,
    25226, 15711, 13617, 9218, 7309, 5702, 3964,
    25186, 12331, 10040, 8146, 6253, 4189, 2136,
    10666, 8624, 5852, 4617, 3922, 3556, 2615,
    2244, 1881, 1612, 1375, 1142, 857, 487,
];
