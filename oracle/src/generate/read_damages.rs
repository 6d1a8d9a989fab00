//! What is changed in a list to be read back, and in what it is read with.

use super::caches::LONGEST;
use super::damages::{self, lacking, MOST};
use super::random::Random;
use super::sides::{depth, side};
use crate::original::{pack, unpack};
use crate::reading::ReadRequest;

/// The words of the longest list that there is.
const LONGEST_LIST: usize = 4234;

kinds! {
    /// Some damages happen to do no harm.
    ReadDamage {
        Kind = "kind",
        First = "first",
        ByOne = "second-by-one",
        AtLimit = "second-at-limit",
        /// Cut to a byte it would be the same again.
        Raised = "second-raised",
        AnyWord = "any-word",
        Dropped = "dropped",
        Added = "added",
        Neighbours = "neighbours",
        Exchanged = "exchanged",
        CutShort = "cut-short",
        LeftOver = "left-over",
        OtherWidth = "other-width",
        OtherHeight = "other-height",
        SidesExchanged = "sides-exchanged",
        OtherDepth = "other-depth",
        OtherCache = "other-cache",
        Side = "side",
        /// Cut to fewer bits it would be the same again.
        SideRaised = "side-raised",
        Depth = "depth",
        CacheLength = "cache-length",
        MapRoom = "map-room",
        FlagRoom = "flag-room",
    }
}

pub fn damage(random: &mut Random, kind: ReadDamage, request: &mut ReadRequest) {
    let longer = request.w.max(request.h);
    match kind {
        ReadDamage::OtherWidth => request.w = side_beside(random, request.w),
        ReadDamage::OtherHeight => request.h = side_beside(random, request.h),
        ReadDamage::SidesExchanged => std::mem::swap(&mut request.w, &mut request.h),
        ReadDamage::OtherDepth => request.bd = depth(random),
        ReadDamage::OtherCache => change_cache(random, &mut request.cache),
        ReadDamage::Side => damages::damage_side(random, &mut request.w, &mut request.h),
        ReadDamage::SideRaised => raise_side(random, request),
        ReadDamage::Depth => request.bd = damages::depth(random),
        ReadDamage::CacheLength => request.cache.resize(random.between(65, LONGEST + 8), 16),
        ReadDamage::MapRoom => request.map_room = lacking(random, cells(request)),
        ReadDamage::FlagRoom => request.flag_room = lacking(random, longer),
        _ => damage_words(random, kind, &mut request.words),
    }
    if matches!(kind, ReadDamage::OtherWidth | ReadDamage::OtherHeight) {
        set_rooms(random, request);
    }
}

/// Rooms as they are asked for, or a little larger.
pub fn set_rooms(random: &mut Random, request: &mut ReadRequest) {
    request.map_room = cells(request).min(MOST) + damages::spare(random);
    request.flag_room = request.w.max(request.h).min(MOST) + damages::spare(random);
}

fn cells(request: &ReadRequest) -> usize {
    request.w.saturating_mul(request.h)
}

/// One more or less, or any side.
fn side_beside(random: &mut Random, side_before: usize) -> usize {
    match random.below(4) {
        0 => side(random),
        1 => side_before.saturating_sub(1).max(1),
        _ => side_before.saturating_add(1).min(64),
    }
}

/// By a power of two; all but the first two are too large for a byte.
fn raise_side(random: &mut Random, request: &mut ReadRequest) {
    let more = random.pick(&[64, 128, 1 << 8, 1 << 8, 1 << 16, 1 << 32, 1 << 32]);
    let side = if random.one_in(2) {
        &mut request.w
    } else {
        &mut request.h
    };
    *side = side.saturating_add(more);
}

/// One entry dropped, added or changed, two exchanged, or none left.
fn change_cache(random: &mut Random, cache: &mut Vec<u16>) {
    let entry = random.between(0, 300) as u16;
    let what = random.below(5);
    if what == 0 && cache.len() < LONGEST {
        return cache.insert(random.below(cache.len() + 1), entry);
    }
    if cache.is_empty() {
        return;
    }
    let (at, other) = (random.below(cache.len()), random.below(cache.len()));
    match what {
        1 => drop(cache.remove(at)),
        2 => cache[at] = entry,
        3 => cache.clear(),
        _ => cache.swap(at, other),
    }
}

/// An empty list stays so, but for what is left over.
fn damage_words(random: &mut Random, kind: ReadDamage, words: &mut Vec<u32>) {
    if kind == ReadDamage::LeftOver {
        let count = left_over(random, words.len());
        return words.extend((0..count).map(|_| any_word(random)));
    }
    if words.is_empty() {
        return;
    }
    let (at, other) = (place(random, words), random.below(words.len()));
    match kind {
        ReadDamage::Dropped => drop(words.remove(at)),
        ReadDamage::Added => {
            let copy = words[other];
            let any = any_word(random);
            words.insert(at, random.pick(&[copy, words[at], any]));
        }
        ReadDamage::Neighbours => words.swap(at, at.saturating_sub(1)),
        ReadDamage::Exchanged => words.swap(at, other),
        ReadDamage::CutShort => words.truncate(at),
        _ => words[at] = changed(random, kind, words[at]),
    }
}

/// How many words are left over behind so many: a few, or now and then more than any list has.
fn left_over(random: &mut Random, count: usize) -> usize {
    if !random.one_in(12) {
        return random.pick(&[1, 1, 1, 2, 64]);
    }
    let most = random.pick(&[MOST, 5000]);
    let length = random.between(LONGEST_LIST + 1, most);
    length.saturating_sub(count).max(1)
}

/// Half of the time among the first words, where the colours are; now and then the last.
fn place(random: &mut Random, words: &[u32]) -> usize {
    match random.below(8) {
        0..=3 => random.below(words.len().min(12)),
        4 => words.len() - 1,
        _ => random.below(words.len()),
    }
}

fn changed(random: &mut Random, kind: ReadDamage, word: u32) -> u32 {
    let (its_kind, first, second) = unpack(word);
    match kind {
        ReadDamage::Kind => {
            let kind = random.pick(&[0, 1, 2, 3, 4, 5, 6, 128 | its_kind, 255]);
            pack((kind, first, second))
        }
        ReadDamage::First => {
            let any = random.below(256) as u32;
            let first = random.pick(&[first ^ 1, first + 1, first.saturating_sub(1), any]);
            pack((its_kind, first & 255, second))
        }
        ReadDamage::ByOne => {
            let second = second + random.pick(&[1, 65_535]);
            pack((its_kind, first, second & 65_535))
        }
        ReadDamage::AtLimit => pack((its_kind, first, limit(random, word))),
        ReadDamage::Raised => {
            let second = second + 256 * random.pick(&[1, 2, 16, 255]);
            pack((its_kind, first, second & 65_535))
        }
        _ => any_word(random),
    }
}

/// The last value of a range or the first beyond it, where ranges of these kinds end.
fn limit(random: &mut Random, word: u32) -> u32 {
    let end = match unpack(word) {
        (1, width @ 0..=12, _) => 1 << width,
        (2, n, _) => n,
        (3, _, _) => 7,
        (4, context, _) => random.pick(&[3, if context == 3 { 2 } else { 3 }]),
        (5, first, _) => first / 5 + 2,
        _ => 256,
    };
    random.pick(&[end.saturating_sub(1), end, end, 65_535])
}

/// Any bits half of the time, else a word that stands in many lists.
fn any_word(random: &mut Random) -> u32 {
    if random.one_in(2) {
        random.bits() as u32
    } else {
        random.pick(&[0, 0x0101_0000, 0x0101_0001, 0x0400_0000, 0x0500_0000])
    }
}
