//! Document 01's worked blocks, run on the original. What is expected is typed from the
//! document, never from a run.

use crate::check::none_number;
use crate::lent::COSTS;
use crate::original::{list, raw_width, search, unpack, Found, Palette};
use std::fmt::{self, Debug, Display, Formatter};

/// What a block gives beside what the document says.
pub struct Check {
    name: String,
    got: String,
    expected: String,
}

impl Check {
    pub fn ok(&self) -> bool {
        self.got == self.expected
    }
}

impl Display for Check {
    fn fmt(&self, f: &mut Formatter<'_>) -> fmt::Result {
        if self.ok() {
            write!(f, "ok    {}: {}", self.name, self.got)
        } else {
            write!(
                f,
                "WRONG {}: {}, expected {}",
                self.name, self.got, self.expected
            )
        }
    }
}

fn check<T: Debug>(name: impl Into<String>, got: T, expected: T) -> Check {
    Check {
        name: name.into(),
        got: format!("{got:?}"),
        expected: format!("{expected:?}"),
    }
}

/// All worked blocks, in the document's order.
pub fn checks() -> Vec<Check> {
    let parts = [
        literal_checks(),
        cache_checks(),
        uniform_checks(),
        search_checks(),
        orientation_checks(),
        listing_checks(),
        wrong_way_checks(),
        reading_checks(),
    ];
    parts.into_iter().flatten().collect()
}

/// Width and value of the bypass calls for the colours: those between the size and the map. The
/// map is one cell, which takes three calls.
fn color_calls(colors: &[u16], cache: &[u16]) -> Vec<(u32, u32)> {
    let palette = Palette {
        w: 1,
        h: 1,
        bd: 8,
        colors: colors.to_vec(),
        transposed: false,
        flags: vec![1],
        map: vec![0],
    };
    let words = list(&palette, cache);
    let calls = &words[1..words.len() - 3];
    calls
        .iter()
        .map(|&word| (unpack(word).1, unpack(word).2))
        .collect()
}

fn literal_checks() -> Vec<Check> {
    let bits = |colors: &[u16]| {
        color_calls(colors, &[])
            .iter()
            .map(|call| call.0)
            .sum::<u32>()
    };
    vec![
        check(
            "16, 80, 235",
            color_calls(&[16, 80, 235], &[]),
            vec![(8, 16), (2, 3), (8, 63), (8, 154)],
        ),
        check(
            "250, 253, 255",
            color_calls(&[250, 253, 255], &[]),
            vec![(8, 250), (2, 0), (5, 2), (1, 1)],
        ),
        check(
            "253, 254, 255",
            color_calls(&[253, 254, 255], &[]),
            vec![(8, 253), (2, 0), (5, 0), (0, 0)],
        ),
        check("254, 255: bits listed", bits(&[254, 255]), 15),
        check("0, 255: bits listed", bits(&[0, 255]), 18),
        // The head has the literals' bits too; orientation and first cell add one bit each.
        check(
            "254, 255: estimate",
            estimate(&halves(254.0, 255.0)),
            (15.0 + 1.0 + 1.0) * 3.0,
        ),
        check(
            "0, 255: estimate",
            estimate(&halves(0.0, 255.0)),
            (18.0 + 1.0 + 1.0) * 3.0,
        ),
    ]
}

fn cache_checks() -> Vec<Check> {
    vec![
        check(
            "10, 20, 30, cache 20, 5, 30, 10, 40",
            color_calls(&[10, 20, 30], &[20, 5, 30, 10, 40]),
            vec![(1, 1), (1, 0), (1, 1), (1, 1)],
        ),
        check(
            "10, 20, cache 20, 20",
            color_calls(&[10, 20], &[20, 20]),
            vec![(1, 1), (1, 0), (8, 10)],
        ),
    ]
}

/// Eight of one and eight of the other.
fn halves(one: f32, other: f32) -> Vec<f32> {
    [vec![one; 8], vec![other; 8]].concat()
}

fn estimate(samples: &[f32]) -> f32 {
    found(samples, samples.len(), 1, 0.0).bits
}

fn found(samples: &[f32], w: usize, h: usize, lambda: f32) -> Found {
    search(samples, w, h, 8, lambda, &[0.0; COSTS]).expect("a palette")
}

/// With costs 0 the map's bits are those of its first cell. The search starts at index `first`
/// of n even levels; lambda 0 makes it keep them all.
fn uniform_width(n: usize, first: usize) -> f32 {
    let samples: Vec<f32> = (0..16).map(|at| (10 * ((at + first) % n)) as f32).collect();
    let Found { palette, bits } = found(&samples, 16, 1, 0.0);
    assert_eq!(
        (palette.colors.len(), usize::from(palette.map[0])),
        (n, first)
    );
    let literals = color_calls(&palette.colors, &[])
        .iter()
        .map(|call| call.0)
        .sum::<u32>();
    bits / 3.0 - literals as f32 - 1.0
}

fn uniform_checks() -> Vec<Check> {
    let widths = |n| {
        (0..n)
            .map(|first| uniform_width(n, first))
            .collect::<Vec<f32>>()
    };
    vec![
        check(
            "uniform widths, n = 5",
            widths(5),
            vec![2.0, 2.0, 2.0, 3.0, 3.0],
        ),
        check("uniform widths, n = 3", widths(3), vec![1.0, 2.0, 2.0]),
    ]
}

/// Colours, orientation, flags and estimate.
fn summary(found: &Found) -> (Vec<u16>, &'static str, Vec<u8>, f32) {
    let p = &found.palette;
    let orientation = if p.transposed { "transposed" } else { "plain" };
    (p.colors.clone(), orientation, p.flags.clone(), found.bits)
}

/// 0 if the original finds a palette, else the number that document 01 gives to its `None`.
fn number(samples: &[f32], w: usize, h: usize) -> u32 {
    match search(samples, w, h, 8, 1.0, &[0.0; COSTS]) {
        Some(_) => 0,
        None => none_number(samples, w, h),
    }
}

fn cycle(levels: usize, cells: usize) -> Vec<f32> {
    (0..cells).map(|at| (at % levels * 7) as f32).collect()
}

fn search_checks() -> Vec<Check> {
    let tens = found(&halves(10.0, 20.0), 16, 1, 0.0);
    let map = [[0u8; 8], [1; 8]].concat();
    vec![
        check(
            "16 by 1, 10s and 20s",
            summary(&tens),
            (vec![10, 20], "plain", vec![0], 51.0),
        ),
        check("16 by 1, 10s and 20s: map", tens.palette.map, map),
        check("10.0 and 10.4 only", number(&halves(10.0, 10.4), 16, 1), 9),
        check("32 levels", number(&cycle(32, 256), 16, 16), 0),
        check("33 levels", number(&cycle(33, 256), 16, 16), 10),
        check("15 by 15", number(&cycle(2, 225), 15, 15), 8),
        check("16 by 1", number(&cycle(2, 16), 16, 1), 0),
    ]
}

/// Bypass calls of a found block of two colours beyond its three literal calls.
fn orientation_bits(w: usize, h: usize) -> usize {
    let words = list(&found(&cycle(2, w * h), w, h, 1.0).palette, &[]);
    words.iter().filter(|&&word| unpack(word).0 == 1).count() - 3
}

fn orientation_checks() -> Vec<Check> {
    vec![
        check("64 by 8: orientation bits", orientation_bits(64, 8), 0),
        check("63 by 8: orientation bits", orientation_bits(63, 8), 1),
    ]
}

fn listing_checks() -> Vec<Check> {
    let palette = Palette {
        w: 4,
        h: 2,
        bd: 8,
        colors: vec![16, 235],
        transposed: false,
        flags: vec![1, 0],
        map: vec![0, 0, 0, 0, 0, 0, 1, 1],
    };
    let words = list(&palette, &[]);
    let calls: Vec<_> = words.iter().map(|&word| unpack(word)).collect();
    let expected = vec![
        (3, 0, 0),
        (1, 8, 16),
        (1, 2, 3),
        (1, 8, 218),
        (1, 1, 0),
        (4, 3, 1),
        (2, 2, 0),
        (4, 1, 0),
        (5, 0, 0),
        (5, 4, 0),
        (5, 4, 1),
        (5, 2, 1),
    ];
    vec![
        check("4 by 2: number of calls", words.len(), 12),
        check("4 by 2: calls", calls, expected),
        check("4 by 2: raw width", raw_width(&words), 20),
    ]
}

/// Blocks on which each of the ways to get a sheet wrong would show.
fn wrong_way_checks() -> Vec<Check> {
    let tens = found(&halves(10.0, 20.0), 16, 1, 0.0);
    vec![
        check(
            "15 between 20s ties and takes the left colour",
            tied_index(),
            1,
        ),
        check(
            "250, 253 uses 5 bits",
            color_calls(&[250, 253], &[])[2],
            (5, 2),
        ),
        check(
            "10.4, 11, 11.6: bound by levels keeps n = 4",
            bound_by_levels(),
            4,
        ),
        check(
            "a repeated entry gets no second 1",
            color_calls(&[10, 20], &[20, 20])[1],
            (1, 0),
        ),
        check(
            "estimate 51, raw width 17",
            raw_width(&list(&tens.palette, &[])),
            17,
        ),
    ]
}

/// Fifteen 10s, sixteen 20s and one 15 give colours 10 and 20; the 15 is as far from both. By
/// rank its left neighbour's colour comes first, by index the other.
fn tied_index() -> u8 {
    let mut samples = [halves(10.0, 20.0), halves(10.0, 20.0)].concat();
    (samples[16 + 7], samples[16 + 12]) = (20.0, 15.0);
    let found = found(&samples, 16, 2, 100.0);
    assert_eq!(found.palette.colors, [10, 20]);
    found.palette.map[16 + 12]
}

/// 10.4, 11 and 11.6 beside thirteen 100s. Two colours cost 0.72 + 19/16 by samples and four
/// 0.32 + 34/16; but the bound of two is 2 + 18/16 by levels, so they are never tried.
fn bound_by_levels() -> usize {
    let samples = [vec![10.4, 11.0, 11.6], vec![100.0; 13]].concat();
    found(&samples, 16, 1, 1.0 / 16.0).palette.colors.len()
}

/// The smallest block seen on which another size won in a process that takes subnormal numbers for
/// 0: 18.5 and three 17.75s among 16s.
fn narrowed() -> [f32; 16] {
    let mut samples = [16.0; 16];
    samples[0] = 18.5;
    for place in [1, 6, 13] {
        samples[place] = 17.75;
    }
    samples
}

/// Three readings of document 01 that were settled on the original.
fn reading_checks() -> Vec<Check> {
    let ties = [vec![1.0], vec![2.0; 14], vec![3.0]].concat();
    let narrow = found(&narrowed(), 16, 1, 0.0);
    let stop = [vec![10.25; 3], vec![13.5; 6], vec![11.5; 7]].concat();
    let stopped = found(&stop, 16, 1, 0.375);
    vec![
        check(
            "1, fourteen 2s, 3: ties are of f64",
            found(&ties, 16, 1, 1.0).palette.colors,
            vec![2, 3],
        ),
        check(
            "10.25 x3, 13.5 x6, 11.5 x7: stop at the bound",
            (stopped.palette.colors.len(), stopped.bits),
            (3, 66.0),
        ),
        check(
            "18.5, 17.75 x3, 16 x12: an error is narrowed by its bits",
            (narrow.palette.colors, narrow.bits),
            (vec![16, 18, 19], 69.0),
        ),
    ]
}
