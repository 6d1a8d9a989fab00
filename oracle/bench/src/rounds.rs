//! Times a batch: rounds of ours and of the original in turn.

use crate::batch::{read_ours, search_original, search_ours, Prices, Room};
use palette_compare::clock::Clock;
use palette_oracle::generate::sheets::Cut;
use palette_station::{list_into, Costs, Palette, MAX_WORDS};
use std::hint::black_box;
use std::time::Duration;

/// Times of one or more batches. Blocks with a palette and refused ones are timed apart, since
/// only the former can be listed and read back.
#[derive(Clone, Copy, Default)]
pub struct Times {
    pub ours: Duration,
    pub original: Duration,
    pub listing: Duration,
    pub reading: Duration,
    pub costing: Duration,
    pub ours_refused: Duration,
    pub original_refused: Duration,
}

impl Times {
    /// Our search's time divided by the original's, on all blocks.
    pub fn whole(&self) -> f64 {
        let ours = self.ours + self.ours_refused;
        ours.as_secs_f64() / (self.original + self.original_refused).as_secs_f64()
    }

    pub fn add(&mut self, other: &Times) {
        self.pairs(other, |mine, theirs| mine + theirs);
    }

    fn least(&mut self, other: &Times) {
        self.pairs(other, Duration::min);
    }

    fn pairs(&mut self, other: &Times, join: fn(Duration, Duration) -> Duration) {
        self.ours = join(self.ours, other.ours);
        self.original = join(self.original, other.original);
        self.listing = join(self.listing, other.listing);
        self.reading = join(self.reading, other.reading);
        self.costing = join(self.costing, other.costing);
        self.ours_refused = join(self.ours_refused, other.ours_refused);
        self.original_refused = join(self.original_refused, other.original_refused);
    }
}

/// A block with our buffers for it and, if it has one, its palette.
pub struct Timed {
    pub block: Cut,
    pub room: Room,
    pub palette: Option<Palette>,
    /// The palette's list; empty without one.
    pub words: Vec<u32>,
    /// A tile's adapted rows.
    pub rows: Vec<u16>,
}

/// The least time of each round over the passes. A round goes once through the blocks of the
/// batch, so that no call, search, listing or reading, is repeated on a block that is still warm
/// from it. Ours and the original take turns in going first.
pub fn time(batch: &mut [Timed], prices: &Prices, passes: usize) -> Times {
    let mut least: Option<Times> = None;
    for pass in 0..passes {
        let times = one_pass(batch, prices, pass % 2 == 0);
        least.get_or_insert(times).least(&times);
    }
    least.unwrap_or_default()
}

fn one_pass(batch: &mut [Timed], prices: &Prices, ours_first: bool) -> Times {
    let mut times = Times::default();
    for found in [true, false] {
        let (mut ours, mut original) = (Duration::ZERO, Duration::ZERO);
        for turn in [ours_first, !ours_first] {
            if turn {
                ours = round_of_ours(batch, prices, found);
            } else {
                original = round_of_original(batch, prices, found);
            }
        }
        if found {
            (times.ours, times.original) = (ours, original);
            times.listing = round_of_listing(batch);
            times.reading = round_of_reading(batch);
            times.costing = round_of_costs(batch);
        } else {
            (times.ours_refused, times.original_refused) = (ours, original);
        }
    }
    times
}

/// Only blocks with a palette, or only those without.
fn chosen(batch: &mut [Timed], found: bool) -> impl Iterator<Item = &mut Timed> {
    batch
        .iter_mut()
        .filter(move |timed| timed.palette.is_some() == found)
}

fn round_of_ours(batch: &mut [Timed], prices: &Prices, found: bool) -> Duration {
    let start = Clock::start();
    for timed in chosen(batch, found) {
        let answer = search_ours(&timed.block, prices, &mut timed.room);
        assert_eq!(answer.is_ok(), found, "a search answers as before");
    }
    start.elapsed()
}

/// The original's palettes are freed after the time is taken: ours writes to lent buffers.
fn round_of_original(batch: &mut [Timed], prices: &Prices, found: bool) -> Duration {
    let mut answers = Vec::with_capacity(batch.len());
    let start = Clock::start();
    for timed in chosen(batch, found) {
        answers.push(search_original(&timed.block, prices));
    }
    start.elapsed()
}

fn round_of_listing(batch: &[Timed]) -> Duration {
    let mut words = vec![0; MAX_WORDS];
    let start = Clock::start();
    for palette in batch.iter().filter_map(|timed| timed.palette.as_ref()) {
        let answer = list_into(&palette.view(), &[], &mut words);
        assert!(answer.is_ok(), "a found palette is accepted");
    }
    start.elapsed()
}

fn round_of_reading(batch: &mut [Timed]) -> Duration {
    let start = Clock::start();
    for timed in chosen(batch, true) {
        let answer = read_ours(&timed.block, &timed.words, &mut timed.room);
        assert!(answer.is_ok(), "a list that was written is read");
    }
    start.elapsed()
}

/// Makes all 301 costs once for each block with a palette.
fn round_of_costs(batch: &mut [Timed]) -> Duration {
    let start = Clock::start();
    for timed in chosen(batch, true) {
        let costs = black_box(Costs::adapted(&timed.rows));
        assert!(costs.is_ok(), "the rows are sound");
    }
    start.elapsed()
}
