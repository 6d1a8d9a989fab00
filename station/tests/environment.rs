//! The answers do not depend on the caller's floating environment, and leave it as it was.
//!
//! Rust takes the default environment for granted. So blocks are made and answers compared in
//! that one, and between the two switches of `under` stands nothing but the call.

mod common;

use common::rows::{costs_of, drawn_table, DEFAULT_TABLE};
use common::{bitwise, block, counted, halves, uncounted, Drawn, Lined, Random};
use palette_station::{
    block_allowed, context, list, pred, read, search, search_strip, search_strip_into, Block,
    Costs, Listing, Palette, Refusal,
};
use std::arch::asm;

/// The register MXCSR: rounding to nearest, subnormal numbers kept, exceptions masked.
const DEFAULT: u32 = 0x1f80;
/// Results that are subnormal become 0.
const FLUSH_TO_ZERO: u32 = 0x8000;
/// Subnormal operands count as 0.
const DENORMALS_ARE_ZERO: u32 = 0x0040;
const DOWNWARD: u32 = 0x2000;
const UPWARD: u32 = 0x4000;
const TOWARDS_ZERO: u32 = 0x6000;
/// No exception masked: each ends the program.
const UNMASKED: u32 = 0;

const MODES: [(&str, u32); 9] = [
    ("default", DEFAULT),
    ("flush to zero", DEFAULT | FLUSH_TO_ZERO),
    ("denormals are zero", DEFAULT | DENORMALS_ARE_ZERO),
    ("both", DEFAULT | FLUSH_TO_ZERO | DENORMALS_ARE_ZERO),
    ("downward", DEFAULT | DOWNWARD),
    ("upward", DEFAULT | UPWARD),
    ("towards zero", DEFAULT | TOWARDS_ZERO),
    ("unmasked", UNMASKED),
    (
        "all at once",
        UNMASKED | UPWARD | FLUSH_TO_ZERO | DENORMALS_ARE_ZERO,
    ),
];

fn mxcsr() -> u32 {
    let mut register = 0u32;
    // SAFETY: the instruction writes the four bytes of `register`.
    unsafe { asm!("stmxcsr [{}]", in(reg) &raw mut register, options(nostack)) };
    register
}

fn set_mxcsr(register: u32) {
    // SAFETY: the instruction reads the four bytes of `register`, none of whose reserved bits is
    // set. `under` alone calls this, and puts back what was there.
    unsafe { asm!("ldmxcsr [{}]", in(reg) &raw const register, options(nostack)) };
}

/// What a call from this environment answers, which it has to leave as it was: the exceptions
/// noted in it too.
fn under<T>(mode: u32, call: impl FnOnce() -> T) -> T {
    let before = mxcsr();
    set_mxcsr(mode);
    let answer = call();
    let after = mxcsr();
    set_mxcsr(before);
    assert_eq!(after, mode, "the caller's environment was {mode:#x}");
    answer
}

/// A block with lambda and costs of its own.
struct Case {
    drawn: Drawn,
    lambda: f32,
    costs: Costs,
}

impl Case {
    fn search(&self) -> Result<Palette, Refusal> {
        search(&self.drawn.block(), self.lambda, &self.costs)
    }
}

/// The smallest block seen in which a search that took subnormal numbers for 0 found other
/// colours, two of them.
const SMALLEST: [f32; 16] = [
    18.5, 17.75, 16.0, 16.0, 16.0, 16.0, 17.75, 16.0, 16.0, 16.0, 16.0, 16.0, 16.0, 17.75, 16.0,
    16.0,
];

/// 8 + 2 + 5 + 5 bits of literals and one of orientation; the first index, of three.
const COUNTED: [f32; 2] = [21.0, 2.0];

const FREE: Costs = Costs::from_table([0.0; 301]);

#[test]
fn the_smallest_block() {
    for (name, mode) in MODES {
        let palette = under(mode, || search(&block(&SMALLEST, 16, 1), 0.0, &FREE)).unwrap();
        assert_eq!(palette.colors[..], [16, 18, 19], "{name}");
        assert_eq!(counted(&palette), COUNTED.map(f32::to_bits), "{name}");
        let estimate = under(mode, || palette.estimate());
        assert_eq!(estimate.to_bits(), 69f32.to_bits(), "{name}");
    }
}

/// Sums and products that are subnormal, or no f32.
#[test]
fn an_estimate() {
    let least = f32::from_bits(1);
    let half_a_step = 1.0 / 16_777_216.0;
    for (head, map_bits, due) in [
        (16.0, 1.0, 51.0),
        (least, 0.0, f32::from_bits(3)),
        (1.0, half_a_step, 3.0),
        (-1.0, -half_a_step, -3.0),
        (0.1, 0.2, 0.90000004),
    ] {
        let palette = Palette {
            head,
            map_bits,
            ..Palette::example()
        };
        for (name, mode) in MODES {
            let estimate = under(mode, || palette.estimate());
            assert_eq!(
                estimate.to_bits(),
                due.to_bits(),
                "{name}: {head}, {map_bits}"
            );
        }
    }
}

/// Two lines of one level each: whether the second is flagged, a subnormal cost decides.
#[test]
fn a_subnormal_cost_counts() {
    let samples = [[10.0; 16], [20.0; 16]].concat();
    let mut table = [0.0; 301];
    table[9 + 3 + 1] = 1e-40; // the flag 1 after a line that has it
    let costs = Costs::from_table(table);
    for (name, mode) in MODES {
        let palette = under(mode, || search(&block(&samples, 16, 2), 1.0, &costs)).unwrap();
        assert_eq!(palette.flags, [1, 0], "{name}");
    }
}

#[test]
fn a_negative_subnormal_is_refused() {
    let least = f32::from_bits(0x8000_0001);
    let samples = halves(16);
    let mut below = samples.clone();
    below[7] = least;
    let mut table = [0.0; 301];
    table[150] = least;
    let costs = Costs::from_table(table);
    for (name, mode) in MODES {
        let number = |block: &Block, lambda, costs| {
            under(mode, || search(block, lambda, costs)).map_or_else(Refusal::number, |_| 0)
        };
        assert_eq!(number(&block(&below, 16, 1), 0.0, &FREE), 6, "{name}");
        assert_eq!(number(&block(&samples, 16, 1), 0.0, &costs), 5, "{name}");
        assert_eq!(number(&block(&samples, 16, 1), least, &FREE), 4, "{name}");
        assert_eq!(number(&block(&samples, 16, 1), -0.0, &FREE), 0, "{name}");
    }
}

/// A block of ordinary samples, lambda and costs.
fn ordinary(random: &mut Random) -> Case {
    Case {
        drawn: random.drawn(),
        lambda: random.below(40_000) as f32 / 128.0,
        costs: Costs::default(),
    }
}

/// A few lines of near levels in eighths, with nothing to pay: sizes come close to one another.
fn close(random: &mut Random) -> Case {
    let (width, height, bd) = (16, random.between(1, 3), random.between(8, 12) as u32);
    let base = random.below(1 << (bd - 1));
    let sample = |random: &mut Random| match random.below(3) {
        0 => (8 * base + random.below(24)) as f32 / 8.0,
        _ => base as f32,
    };
    let samples = (0..width * height).map(|_| sample(random)).collect();
    let drawn = Drawn {
        samples,
        width,
        height,
        bd,
    };
    Case {
        drawn,
        lambda: 0.0,
        costs: FREE,
    }
}

/// Lines of three levels, many of them alike.
fn lines(random: &mut Random, count: usize) -> Vec<f32> {
    let mut line = [0.0; 16];
    let mut samples = Vec::new();
    for _ in 0..count {
        let level = random.below(3) as f32;
        match random.below(3) {
            0 => line.fill(level),
            1 => line.fill_with(|| random.below(3) as f32),
            _ => {}
        }
        samples.extend(line);
    }
    samples
}

fn one_of(random: &mut Random, numbers: &[f32]) -> f32 {
    numbers[random.between(0, numbers.len() - 1)]
}

/// Lines that have no other error than squares of tiny samples, with costs next to 0: nothing but
/// subnormal numbers tells their flags apart.
fn small(random: &mut Random) -> Case {
    let (width, height) = (16, random.between(2, 8));
    let mut samples = lines(random, height);
    for sample in samples.iter_mut().filter(|sample| **sample == 0.0) {
        *sample = one_of(random, &[0.0, 0.0, 0.0, 1e-20, 3e-21, 1e-40, 1e-45]);
    }
    let mut table = [0.0; 301];
    table.fill_with(|| one_of(random, &[0.0, 1e-45, 1e-40, 3e-40, 1e-39]));
    let drawn = Drawn {
        samples,
        width,
        height,
        bd: random.between(8, 12) as u32,
    };
    Case {
        drawn,
        lambda: one_of(random, &[1.0, 0.5, 300.0, 1e-20, 1e-40]),
        costs: Costs::from_table(table),
    }
}

fn cases(seed: u64) -> Vec<Case> {
    let mut random = Random(seed);
    let makers = [ordinary, close, small];
    let kinds = makers.into_iter().cycle().take(600);
    kinds.map(|make| make(&mut random)).collect()
}

#[test]
fn searches() {
    let mut found = 0;
    for (place, case) in cases(7).iter().enumerate() {
        let due = bitwise(case.search());
        found += usize::from(due.is_ok());
        for (name, mode) in MODES {
            let answer = bitwise(under(mode, || case.search()));
            assert_eq!(answer, due, "case {place}, {name}");
        }
    }
    assert!(found > 500, "only {found} palettes found");
}

/// The blocks of cases in strips, each with lambda and costs of its first one: what strips answer
/// is what the blocks have alone in the default environment.
#[test]
fn strips() {
    let mut found = 0;
    for (place, strip) in cases(11).chunks(20).enumerate() {
        let blocks: Vec<Block> = strip.iter().map(|case| case.drawn.block()).collect();
        let (lambda, costs) = (strip[0].lambda, &strip[0].costs);
        let alone = blocks.iter().map(|block| search(block, lambda, costs));
        let due: Vec<_> = alone.map(bitwise).collect();
        found += due.iter().flatten().count();
        for (name, mode) in MODES {
            let answers = under(mode, || search_strip(&blocks, lambda, costs)).unwrap();
            let answers: Vec<_> = answers.map(bitwise).collect();
            assert_eq!(answers, due, "strip {place}, {name}");
        }
    }
    assert!(found > 400, "only {found} palettes found");
}

/// Between the switches stands the call alone, and the caller's environment is put back also where
/// the strip is refused as a whole.
#[test]
fn strips_with_lent_buffers() {
    let smallest = block(&SMALLEST, 16, 1);
    let lined = Lined::of(&[block(&[7.0], 1, 1), smallest, smallest]);
    let (mut map, mut flags) = ([0; 33], [0; 33]);
    for (name, mode) in MODES {
        let blocks = lined.blocks();
        let answers = under(mode, || {
            search_strip_into(&blocks, 0.0, &FREE, &mut map, &mut flags)
        });
        let mut answers = answers.unwrap();
        assert_eq!(answers.next(), Some(Err(Refusal::SMALL)), "{name}");
        for palette in answers {
            let palette = palette.unwrap();
            assert_eq!(palette.colors[..], [16, 18, 19], "{name}");
            assert_eq!(
                counted(&palette.to_palette()),
                COUNTED.map(f32::to_bits),
                "{name}"
            );
        }
        let refused = under(mode, || {
            search_strip_into(&blocks, 0.0, &FREE, &mut map[1..], &mut flags)
        });
        assert_eq!(refused.err(), Some(Refusal::ROOM), "{name}");
    }
}

/// The list of a palette, and the bits of its prediction.
fn listed(palette: &Palette, cache: &[u16], mode: u32) -> (Result<Listing, Refusal>, Vec<u32>) {
    let (listing, values) = under(mode, || (list(palette, cache), pred(palette)));
    let values = values.expect("the search found it").into_iter();
    (listing, values.map(f32::to_bits).collect())
}

#[test]
fn lists_and_predictions() {
    let cache: Vec<u16> = (0..65).collect();
    let palettes = cases(8).into_iter().filter_map(|case| case.search().ok());
    for palette in palettes.take(200) {
        for cached in [0, 64, 65] {
            let due = listed(&palette, &cache[..cached], DEFAULT);
            assert_eq!(due.0.is_ok(), cached < 65);
            for (name, mode) in MODES {
                assert_eq!(listed(&palette, &cache[..cached], mode), due, "{name}");
            }
        }
    }
}

/// Reading has no floats today. This guards against some that come in later.
#[test]
fn lists_read_back() {
    let cache: Vec<u16> = (0..64).collect();
    let palettes = cases(9).into_iter().filter_map(|case| case.search().ok());
    for palette in palettes.take(100) {
        let words = list(&palette, &cache).expect("the search found it").words;
        let (width, height, bd) = (palette.width, palette.height, palette.bd);
        let due = bitwise(Ok(uncounted(&palette)));
        for (name, mode) in MODES {
            let back = under(mode, || read(width, height, bd, &words, &cache));
            assert_eq!(bitwise(back), due, "{name}");
        }
    }
}

/// The bits of the costs made from a table.
fn made(table: &[u16], mode: u32) -> Result<[u32; 301], Refusal> {
    let costs = under(mode, || Costs::adapted(table))?;
    Ok(costs.as_table().map(f32::to_bits))
}

/// The C program asks the archive itself in such environments.
#[test]
fn costs() {
    let mut random = Random(10);
    let drawn = (0..100).map(|_| drawn_table(&mut random));
    for table in drawn.chain([DEFAULT_TABLE.to_vec()]) {
        let due: Vec<u32> = costs_of(&table).into_iter().map(f32::to_bits).collect();
        for (name, mode) in MODES {
            assert_eq!(made(&table, mode).unwrap()[..], due, "{name}");
            assert_eq!(made(&[], mode), made(&DEFAULT_TABLE, DEFAULT), "{name}");
            assert_eq!(made(&table[1..], mode), Err(Refusal::ADAPTED_LENGTH));
        }
    }
}

#[test]
fn contexts_and_sides() {
    let map = [0, 2, 1, 0];
    for (name, mode) in MODES {
        let found = under(mode, || context(&map, 2, 1, 1, 4)).unwrap();
        assert_eq!(
            (found.value(), found.order()),
            (1, &[1, 2, 0, 3][..]),
            "{name}"
        );
        let refused = under(mode, || context(&map, 2, 0, 0, 4));
        assert_eq!(refused, Err(Refusal::CONTEXT), "{name}");
        assert!(under(mode, || block_allowed(2, 2)), "{name}");
        assert!(!under(mode, || block_allowed(1, 3)), "{name}");
    }
}
