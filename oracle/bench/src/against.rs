//! Times two archives beside each other and beside the original: search, listing and reading.

use crate::archive::{Archive, Room};
use crate::batch::{search_original, Prices};
use crate::options::Options;
use crate::BATCH;
use palette_compare::clock::Clock;
use palette_oracle::check::none_number;
use palette_oracle::generate::costs::logarithms;
use palette_oracle::generate::sheets::{corners, Cut, Sheet};
use palette_oracle::{Found, Palette};
use palette_station::{Costs, MAX_WORDS};
use std::time::Duration;

/// Of the three that take turns.
const ORIGINAL: usize = 2;

/// Who goes first, second and third in a pass: the archives 0 and 1, and the original.
const TURNS: [[usize; 3]; 6] = [
    [0, 1, 2],
    [1, 0, 2],
    [2, 0, 1],
    [2, 1, 0],
    [0, 2, 1],
    [1, 2, 0],
];

pub struct Against<'a> {
    pub archives: [&'a Archive; 2],
    pub options: &'a Options,
}

/// A block with its answer, which both archives have given.
struct Timed {
    block: Cut,
    room: Room,
    found: Option<Listed>,
}

struct Listed {
    palette: Palette,
    /// In eight places.
    colors: [u16; 8],
    words: Vec<u32>,
}

/// Times of the first archive, of the second, and of the original's search.
#[derive(Clone, Copy, Default)]
struct Times {
    found: [Duration; 3],
    refused: [Duration; 3],
    listing: [Duration; 2],
    reading: [Duration; 2],
}

#[derive(Default)]
struct Outcome {
    times: Times,
    blocks: usize,
    found: usize,
    differences: usize,
}

/// Prints the table; the count of blocks on which one of the three differs.
pub fn run(against: &Against) -> usize {
    let options = against.options;
    println!(
        "each {}. block, the least of {} passes",
        options.part, options.passes
    );
    println!("s, list, read: search, listing, reading; found, refused: of those blocks alone");
    println!("n/o: the second archive's time / the first's; o/r, n/r: the first's and the second's / the original's search");
    println!("o, n: the first archive's time and the second's in ns a block");
    println!("   sheet  side lambda blocks  found |  s n/o  s o/r  s n/r found n/o refused n/o | list n/o       o       n   n/r | read n/o       o       n   n/r");
    let costs = &Costs::from_table(*logarithms());
    let mut differences = 0;
    for sheet in options.sheets() {
        for side in options.sides() {
            for lambda in options.lambdas() {
                let outcome = against.measure(&sheet, side, &Prices { lambda, costs });
                print_line(&sheet, side, lambda, &outcome);
                differences += outcome.differences;
            }
        }
    }
    differences
}

impl Against<'_> {
    fn measure(&self, sheet: &Sheet, side: usize, prices: &Prices) -> Outcome {
        let mut outcome = Outcome::default();
        let taken: Vec<_> = corners(side).step_by(self.options.part).collect();
        for corners in taken.chunks(BATCH) {
            let blocks = corners.iter().map(|&corner| sheet.cut(corner, side));
            let looked: Vec<_> = blocks.map(|block| self.looked_at(block, prices)).collect();
            outcome.blocks += looked.len();
            outcome.differences += looked.iter().filter(|timed| timed.is_none()).count();
            let mut batch: Vec<Timed> = looked.into_iter().flatten().collect();
            outcome.found += batch.iter().filter(|timed| timed.found.is_some()).count();
            outcome
                .times
                .join(&self.time(&mut batch, prices), |a, b| a + b);
        }
        outcome
    }

    /// Searches, lists and reads by all, untimed; none if one of them differs.
    fn looked_at(&self, block: Cut, prices: &Prices) -> Option<Timed> {
        let due = search_original(&block, prices);
        let number = none_number(&block.samples, block.w, block.h);
        let mut room = Room::of(&block);
        let listed = due.as_ref().map(Listed::of);
        for archive in self.archives {
            let answer = archive.search(&block, prices, &mut room);
            if answer != number || !room.holds(archive, due.as_ref()) {
                return None;
            }
            let same = |listed: &Listed| listed.same(archive, &block, due.as_ref(), &mut room);
            if !listed.as_ref().is_none_or(same) {
                return None;
            }
        }
        Some(Timed {
            block,
            room,
            found: listed,
        })
    }

    /// The least time of each round over the passes.
    fn time(&self, batch: &mut [Timed], prices: &Prices) -> Times {
        let mut least: Option<Times> = None;
        for pass in 0..self.options.passes {
            let times = self.one_pass(batch, prices, TURNS[pass % TURNS.len()]);
            least.get_or_insert(times).join(&times, Duration::min);
        }
        least.unwrap_or_default()
    }

    fn one_pass(&self, batch: &mut [Timed], prices: &Prices, turns: [usize; 3]) -> Times {
        let mut times = Times::default();
        for who in turns {
            times.found[who] = self.round(batch, prices, who, true);
        }
        for who in turns {
            times.refused[who] = self.round(batch, prices, who, false);
        }
        let archives = turns.into_iter().filter(|&who| who != ORIGINAL);
        for who in archives.clone() {
            times.listing[who] = self.round_of_listing(batch, who);
        }
        for who in archives {
            times.reading[who] = self.round_of_reading(batch, who);
        }
        times
    }

    fn round(&self, batch: &mut [Timed], prices: &Prices, who: usize, found: bool) -> Duration {
        let chosen = batch.iter_mut().filter(|t| t.found.is_some() == found);
        let Some(archive) = self.archives.get(who) else {
            return round_of_original(chosen, prices);
        };
        let start = Clock::start();
        for timed in chosen {
            let number = archive.search(&timed.block, prices, &mut timed.room);
            assert_eq!(number == 0, found, "a search answers as before");
        }
        start.elapsed()
    }

    fn round_of_listing(&self, batch: &[Timed], who: usize) -> Duration {
        let mut words = vec![0; MAX_WORDS];
        let start = Clock::start();
        for listed in batch.iter().filter_map(|timed| timed.found.as_ref()) {
            let count = self.archives[who].list(&listed.palette, &listed.colors, &mut words);
            assert!(count.is_some(), "a found palette is accepted");
        }
        start.elapsed()
    }

    fn round_of_reading(&self, batch: &mut [Timed], who: usize) -> Duration {
        let start = Clock::start();
        for timed in batch.iter_mut() {
            let Some(listed) = &timed.found else { continue };
            let number = self.archives[who].read(&timed.block, &listed.words, &mut timed.room);
            assert_eq!(number, 0, "a list that was written is read");
        }
        start.elapsed()
    }
}

/// The original's palettes are freed after the time is taken: the archives write to lent buffers.
fn round_of_original<'a>(chosen: impl Iterator<Item = &'a mut Timed>, prices: &Prices) -> Duration {
    let mut answers = Vec::with_capacity(BATCH);
    let start = Clock::start();
    for timed in chosen {
        answers.push(search_original(&timed.block, prices));
    }
    start.elapsed()
}

impl Room {
    /// Whether it holds an archive's whole answer to a search.
    fn holds(&self, archive: &Archive, due: Option<&Found>) -> bool {
        let estimate = archive.estimate(self).to_bits();
        self.holds_palette(due) && estimate == due.map_or(0, |found| found.bits.to_bits())
    }

    fn holds_palette(&self, due: Option<&Found>) -> bool {
        let same = |Found { palette, .. }: &Found| {
            self.map == palette.map && self.flags[..palette.flags.len()] == palette.flags
        };
        self.fields == Found::fields(due) && due.is_none_or(same)
    }
}

impl Listed {
    fn of(found: &Found) -> Self {
        let palette = found.palette.clone();
        let place = |at: usize| palette.colors.get(at).copied().unwrap_or(0);
        Listed {
            colors: std::array::from_fn(place),
            words: palette_oracle::list(&palette, &[]),
            palette,
        }
    }

    /// Whether an archive writes this list and reads the palette from it.
    fn same(&self, archive: &Archive, block: &Cut, due: Option<&Found>, room: &mut Room) -> bool {
        let mut words = vec![0; MAX_WORDS];
        let count = archive.list(&self.palette, &self.colors, &mut words);
        room.map.fill(0);
        room.flags.fill(0);
        count.is_some_and(|count| words[..count] == self.words)
            && archive.read(block, &self.words, room) == 0
            && room.holds_palette(due)
    }
}

impl Times {
    fn join(&mut self, other: &Times, join: fn(Duration, Duration) -> Duration) {
        let pairs = [
            (&mut self.found[..], &other.found[..]),
            (&mut self.refused[..], &other.refused[..]),
            (&mut self.listing[..], &other.listing[..]),
            (&mut self.reading[..], &other.reading[..]),
        ];
        for (mine, theirs) in pairs {
            for (mine, theirs) in mine.iter_mut().zip(theirs) {
                *mine = join(*mine, *theirs);
            }
        }
    }
}

fn print_line(sheet: &Sheet, side: usize, lambda: f32, outcome: &Outcome) {
    let Outcome {
        times,
        blocks,
        found,
        ..
    } = outcome;
    let whole: Vec<Duration> = (0..3)
        .map(|who| times.found[who] + times.refused[who])
        .collect();
    // Without a block a round's time is the clock's own.
    let ratio = |blocks: usize, one: Duration, other: Duration| match blocks {
        0 => "-".to_string(),
        _ => format!("{:.3}", one.as_secs_f64() / other.as_secs_f64()),
    };
    let each = |time: Duration| match found {
        0 => "-".to_string(),
        _ => format!("{:.0}", time.as_secs_f64() * 1e9 / *found as f64),
    };
    print!(
        "{:>8} {side:>5} {lambda:>6} {blocks:>6} {found:>6} | {:>6} {:>6} {:>6} {:>9} {:>11}",
        sheet.name,
        ratio(*blocks, whole[1], whole[0]),
        ratio(*blocks, whole[0], whole[ORIGINAL]),
        ratio(*blocks, whole[1], whole[ORIGINAL]),
        ratio(*found, times.found[1], times.found[0]),
        ratio(blocks - found, times.refused[1], times.refused[0]),
    );
    for [old, new] in [times.listing, times.reading] {
        print!(
            " | {:>8} {:>7} {:>7} {:>5}",
            ratio(*found, new, old),
            each(old),
            each(new),
            ratio(*found, new, times.found[ORIGINAL])
        );
    }
    println!();
}
