//! The colours of a found palette are those of a cut of the levels whose exact sum is near the least
//! over all cuts: document 02's L9, as a caller sees it.

mod common;

use common::{block, cases, Random};
use palette_station::{search, Costs};
use std::collections::BTreeMap;

const SIDE: usize = 16;
const MOST_LEVELS: usize = 9;

/// Of levels or of a group: how many cells, the sum of their levels and that of the squares.
#[derive(Clone, Copy, Default)]
struct Sums {
    w: u128,
    s: u128,
    q: u128,
}

impl Sums {
    fn plus(self, other: Sums) -> Sums {
        Sums {
            w: self.w + other.w,
            s: self.s + other.s,
            q: self.q + other.q,
        }
    }

    /// q - s·s/w
    fn cost(self) -> Fraction {
        Fraction(self.q * self.w - self.s * self.s, self.w)
    }

    fn color(self) -> u16 {
        ((2 * self.s + self.w) / (2 * self.w)) as u16
    }
}

/// Numerator and denominator. 256 cells of 8 bits in 8 groups keep all products below 2^116.
#[derive(Clone, Copy)]
struct Fraction(u128, u128);

impl Fraction {
    fn plus(self, other: Fraction) -> Fraction {
        Fraction(self.0 * other.1 + other.0 * self.1, self.1 * other.1)
    }

    fn below(self, other: Fraction) -> bool {
        self.0 * other.1 < other.0 * self.1
    }

    /// At most 1/2048 above another.
    fn near(self, least: Fraction) -> bool {
        2048 * self.0 * least.1 <= 2048 * least.0 * self.1 + self.1 * least.1
    }
}

struct Cut {
    colors: Vec<u16>,
    sum: Fraction,
}

/// Every cut of the levels into n groups in a row, none empty.
fn cuts(levels: &[Sums], n: usize) -> Vec<Cut> {
    if n == 0 {
        let none = Cut {
            colors: Vec::new(),
            sum: Fraction(0, 1),
        };
        return if levels.is_empty() {
            vec![none]
        } else {
            Vec::new()
        };
    }
    let ends = 0..levels.len();
    ends.flat_map(|start| {
        let group = levels[start..]
            .iter()
            .fold(Sums::default(), |all, &one| all.plus(one));
        cuts(&levels[..start], n - 1)
            .into_iter()
            .map(move |mut cut| {
                cut.colors.push(group.color());
                cut.sum = cut.sum.plus(group.cost());
                cut
            })
    })
    .collect()
}

fn levels(samples: &[f32]) -> Vec<Sums> {
    let mut sums = BTreeMap::<u128, Sums>::new();
    for sample in samples {
        let level = sample.round() as u128;
        let one = Sums {
            w: 1,
            s: level,
            q: level * level,
        };
        let so_far = sums.entry(level).or_default();
        *so_far = so_far.plus(one);
    }
    sums.into_values().collect()
}

fn samples(random: &mut Random) -> Vec<f32> {
    let count = random.between(2, MOST_LEVELS);
    let levels: Vec<f32> = (0..count).map(|_| random.between(0, 250) as f32).collect();
    let cell = |_| levels[random.between(0, count - 1)] + random.between(0, 9) as f32 / 20.0;
    (0..SIDE * SIDE).map(cell).collect()
}

#[test]
fn colors_of_a_cut_near_the_least() {
    let mut random = Random(21);
    let (mut sizes, mut farther) = ([0; 9], 0);
    for _ in 0..cases(400) {
        let samples = samples(&mut random);
        let lambda = [0.0, 1.0, 20.0, 200.0][random.between(0, 3)];
        let Ok(palette) = search(&block(&samples, SIDE, SIDE), lambda, &Costs::default()) else {
            continue;
        };
        let cuts = cuts(&levels(&samples), palette.colors.len());
        let sums = cuts.iter().map(|cut| cut.sum);
        let least = sums.reduce(|a, b| if b.below(a) { b } else { a }).unwrap();
        let near = |cut: &Cut| cut.sum.near(least);
        assert!(cuts
            .iter()
            .any(|cut| cut.colors == palette.colors[..] && near(cut)));
        sizes[palette.colors.len()] += 1;
        farther += usize::from(cuts.iter().any(|cut| !near(cut)));
    }
    assert!(sizes[2..].iter().all(|&found| found > 0), "{sizes:?}");
    // Most blocks have cuts that the test would not let through.
    assert!(farther > 100);
}
