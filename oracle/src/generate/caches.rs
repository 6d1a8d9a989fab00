//! Caches of up to 64 entries of any value.

use super::random::Random;
use crate::check::top;
use crate::original::Palette;

kinds! {
    CacheKind {
        Empty = "empty",
        Same = "same",
        Shuffled = "shuffled",
        Part = "part",
        Repeats = "repeats",
        OneEntry = "one-entry",
        AboveTop = "above-top",
        Misses = "misses",
        TakenEarly = "taken-early",
    }
}

pub const LONGEST: usize = 64;

/// A stream of its own keeps the palette of a seed and index the same under any cache.
pub fn cache(seed: u64, index: u64, palette: &Palette) -> (Vec<u16>, CacheKind) {
    let random = &mut Random::new(!seed, index);
    let kind = random.pick(CacheKind::ALL);
    (cache_of(random, kind, palette), kind)
}

pub fn cache_of(random: &mut Random, kind: CacheKind, palette: &Palette) -> Vec<u16> {
    let top = top(palette.bd) as usize;
    let length = random.between(1, LONGEST);
    let mut colors = palette.colors.clone();
    match kind {
        CacheKind::Empty => vec![],
        CacheKind::Same => colors,
        CacheKind::Shuffled => {
            random.shuffle(&mut colors);
            colors
        }
        CacheKind::Part => entries(length, || mixed(random, &palette.colors, top)),
        CacheKind::Repeats => entries(length, || random.pick(&colors)),
        CacheKind::OneEntry => vec![mixed(random, &colors, top); length],
        CacheKind::AboveTop => entries(length, || mixed(random, &palette.colors, 65_535)),
        CacheKind::Misses => entries(LONGEST, || miss(random, &colors)),
        CacheKind::TakenEarly => {
            random.shuffle(&mut colors);
            let rest = LONGEST - colors.len();
            colors.extend(entries(rest, || mixed(random, &palette.colors, top)));
            colors
        }
    }
}

fn entries(length: usize, entry: impl FnMut() -> u16) -> Vec<u16> {
    std::iter::repeat_with(entry).take(length).collect()
}

/// A colour of the palette one time in four, else any value up to `end`.
fn mixed(random: &mut Random, colors: &[u16], end: usize) -> u16 {
    if random.one_in(4) {
        random.pick(colors)
    } else {
        random.between(0, end) as u16
    }
}

fn miss(random: &mut Random, colors: &[u16]) -> u16 {
    loop {
        let entry = random.between(0, 65_535) as u16;
        if !colors.contains(&entry) {
            return entry;
        }
    }
}
