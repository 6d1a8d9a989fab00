//! Times our strips beside our separate searches of the same blocks.

use crate::batch::Prices;
use palette_compare::clock::Clock;
use palette_oracle::generate::costs::logarithms;
use palette_oracle::generate::sheets::{corners_of, sheets, Cut, Sheet, DEPTH};
use palette_station::{search_into, search_strip_into, Block, Blocks, Costs, MAX_STRIP};
use palette_station::{Palette, PaletteView, Refusal};
use std::hint::black_box;
use std::time::Duration;

/// Widths and heights that the sheets are cut to.
const CUTS: [(usize, usize); 5] = [(64, 64), (16, 16), (8, 32), (8, 8), (4, 4)];
const LAMBDA: f32 = 60.0;

type Answer<'a> = Result<PaletteView<'a>, Refusal>;

/// Prints the table; the count of strips that differ from separate searches.
pub fn run(part: usize, passes: usize) -> usize {
    println!("each {part}. strip, the least of {passes} passes, lambda {LAMBDA}");
    println!(
        "all: the time of strips of {MAX_STRIP} blocks, divided by that of a search for each block"
    );
    println!("found, refused: the same of strips of blocks with a palette alone, and of those without alone");
    println!("   sheet     cut  blocks   found     all   found refused");
    let costs = Costs::from_table(*logarithms());
    let prices = Prices {
        lambda: LAMBDA,
        costs: &costs,
    };
    let mut differences = 0;
    for sheet in sheets() {
        for cut in CUTS {
            differences += print_line(&sheet, cut, &prices, (part, passes));
        }
    }
    differences
}

fn print_line(
    sheet: &Sheet,
    cut: (usize, usize),
    prices: &Prices,
    (part, passes): (usize, usize),
) -> usize {
    let corners: Vec<_> = corners_of(cut).collect();
    let (mut found, mut refused) = (Vec::new(), Vec::new());
    let (mut all, mut differences) = (Times::default(), 0);
    for strip in corners.chunks(MAX_STRIP).step_by(part) {
        let blocks: Vec<Cut> = strip.iter().map(|&at| sheet.cut_to(at, cut)).collect();
        let mut strip = Strip::of(&blocks);
        let due = answers(|answer| strip.search_each(prices, answer));
        let same = due == answers(|answer| strip.search(prices, answer));
        differences += usize::from(!same);
        all.add(&mut strip, prices, passes);
        for (block, answer) in blocks.into_iter().zip(due) {
            let kind = if answer.is_ok() {
                &mut found
            } else {
                &mut refused
            };
            kind.push(block);
        }
    }
    let (width, height) = cut;
    println!(
        "{:>8} {:>7} {:>7} {:>7} {:>7} {:>7} {:>7}",
        sheet.name,
        format!("{width}x{height}"),
        found.len() + refused.len(),
        found.len(),
        all.ratio(),
        Times::of(&found, prices, passes).ratio(),
        Times::of(&refused, prices, passes).ratio()
    );
    differences
}

/// The palettes and refusals of a search, in their order.
fn answers(search: impl FnOnce(&mut dyn FnMut(Answer<'_>))) -> Vec<Result<Palette, Refusal>> {
    let mut all = Vec::new();
    search(&mut |answer| all.push(answer.map(|palette| palette.to_palette())));
    all
}

/// Times of strips and of separate searches.
#[derive(Default)]
struct Times {
    strips: Duration,
    separate: Duration,
}

impl Times {
    fn of(blocks: &[Cut], prices: &Prices, passes: usize) -> Self {
        let mut times = Times::default();
        for strip in blocks.chunks(MAX_STRIP) {
            times.add(&mut Strip::of(strip), prices, passes);
        }
        times
    }

    /// Adds the least times of a strip. The two take turns in going first.
    fn add(&mut self, strip: &mut Strip, prices: &Prices, passes: usize) {
        let (mut together, mut separate) = (Duration::MAX, Duration::MAX);
        for pass in 0..passes {
            for turn in [pass % 2 == 0, pass % 2 != 0] {
                let start = Clock::start();
                if turn {
                    strip.search(prices, seen);
                    together = together.min(start.elapsed());
                } else {
                    strip.search_each(prices, seen);
                    separate = separate.min(start.elapsed());
                }
            }
        }
        self.strips += together;
        self.separate += separate;
    }

    fn ratio(&self) -> String {
        if self.separate.is_zero() {
            return "-".to_string();
        }
        let ratio = self.strips.as_secs_f64() / self.separate.as_secs_f64();
        format!("{ratio:.3}")
    }
}

/// Keeps the compiler from leaving an answer out.
fn seen(answer: Answer<'_>) {
    black_box(answer.is_ok());
}

/// Blocks one after the other, with room for their maps and flags.
struct Strip {
    sides: Vec<[usize; 2]>,
    samples: Vec<f32>,
    map: Vec<u8>,
    flags: Vec<u8>,
}

impl Strip {
    fn of(blocks: &[Cut]) -> Self {
        let samples: Vec<f32> = blocks.iter().flat_map(|b| b.samples.clone()).collect();
        Strip {
            sides: blocks.iter().map(|b| [b.w, b.h]).collect(),
            map: vec![0; samples.len()],
            flags: vec![0; blocks.iter().map(|b| b.w.max(b.h)).sum()],
            samples,
        }
    }

    fn search(&mut self, prices: &Prices, mut answer: impl FnMut(Answer<'_>)) {
        let blocks = Blocks {
            sides: &self.sides,
            samples: &self.samples,
            bd: DEPTH,
        };
        let (map, flags) = (&mut self.map, &mut self.flags);
        let answers = search_strip_into(&blocks, prices.lambda, prices.costs, map, flags);
        for found in answers.expect("a strip of sound blocks is searched") {
            answer(found);
        }
    }

    /// The same by a call for each block.
    fn search_each(&mut self, prices: &Prices, mut answer: impl FnMut(Answer<'_>)) {
        let (mut cell, mut line) = (0, 0);
        for &[width, height] in &self.sides {
            let (cells, lines) = (width * height, width.max(height));
            let block = Block {
                samples: &self.samples[cell..][..cells],
                width,
                height,
                bd: DEPTH,
            };
            let map = &mut self.map[cell..][..cells];
            let flags = &mut self.flags[line..][..lines];
            let found = search_into(&block, prices.lambda, prices.costs, map, flags);
            answer(found);
            (cell, line) = (cell + cells, line + lines);
        }
    }
}
