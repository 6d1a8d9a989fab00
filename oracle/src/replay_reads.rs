//! The lists that the crate `replay_reads` is run on, and the lines that it must print.

use crate::generate::random::{Beside, Random};
use crate::generate::reads::{damaged_list, palette_of, sound_list, DamagedKinds};
use crate::original::{Found, Palette};
use crate::reading::{read, ReadRequest};
use crate::replay::{hash, put_pair};

/// What the crate's buffers for words and map hold, and its buffer for flags.
const PLACES: usize = 4240;
const FLAG_PLACES: usize = 80;

pub struct ReplayedRead {
    pub request: ReadRequest,
    /// `None` for a list of the original.
    pub kinds: Option<DamagedKinds>,
    pub answer: Result<Palette, u32>,
}

/// The first lists of a seed whose numbers fit the form.
pub fn replayed_reads(seed: u64, count: usize) -> impl Iterator<Item = ReplayedRead> {
    (0..)
        .map(move |index| drawn(seed, index))
        .filter(|replayed| fits(&replayed.request))
        .take(count)
}

/// Every third list is the original's.
fn drawn(seed: u64, index: u64) -> ReplayedRead {
    let random = &mut Random::beside(seed, index, Beside::Read);
    let sides = sides(random, index);
    let palette = palette_of(random, sides);
    let (request, kinds) = if index.is_multiple_of(3) {
        (sound_list(random, &palette), None)
    } else {
        let (request, kinds) = damaged_list(random, &palette);
        (request, Some(kinds))
    };
    let answer = read(&request);
    ReplayedRead {
        request,
        kinds,
        answer,
    }
}

/// Small blocks, of which many go into a file of bounded size.
const SIDES: &[(usize, usize)] = &[
    (1, 1),
    (1, 2),
    (2, 1),
    (4, 2),
    (3, 5),
    (8, 8),
    (16, 2),
    (1, 16),
    (7, 15),
    (64, 1),
    (1, 64),
    (63, 2),
    (2, 64),
    (16, 16),
];

/// Great blocks stand at fixed places, so that there are few of them.
fn sides(random: &mut Random, index: u64) -> (usize, usize) {
    match index {
        _ if index % 40 == 15 => (64, 64),
        _ if index % 40 == 35 => random.pick(&[(63, 63), (63, 17), (17, 63), (64, 33)]),
        _ => random.pick(SIDES),
    }
}

fn fits(request: &ReadRequest) -> bool {
    let numbers = [request.w, request.h, request.bd as usize];
    numbers.iter().all(|&number| number < 256)
        && request.cache.len() < 256
        && request.flag_room <= FLAG_PLACES
        && request.map_room.max(request.words.len()) <= PLACES
}

/// The bytes of a list: a head of 9, then the cache, then the words.
pub fn bytes(replayed: &ReplayedRead) -> Vec<u8> {
    let request = &replayed.request;
    let mut bytes = vec![request.w as u8, request.h as u8, request.bd as u8];
    bytes.extend([request.cache.len() as u8, request.flag_room as u8]);
    put_pair(&mut bytes, request.map_room as u16);
    put_pair(&mut bytes, request.words.len() as u16);
    for &entry in &request.cache {
        put_pair(&mut bytes, entry);
    }
    bytes.extend(request.words.iter().flat_map(|word| word.to_le_bytes()));
    bytes
}

/// The place is counted from 1; head and map bits are 0, as a list holds nothing of them; the two
/// ones say that the places behind map and flags kept what they held.
pub fn line(place: usize, replayed: &ReplayedRead) -> String {
    let number = replayed.answer.as_ref().err().unwrap_or(&0);
    let found = replayed
        .answer
        .clone()
        .ok()
        .map(|palette| Found { palette, bits: 0.0 });
    let [n, colors @ .., orientation] = Found::fields(found.as_ref());
    let colors: Vec<String> = colors.iter().map(u32::to_string).collect();
    let (map, flags) = found.map_or_else(Default::default, |f| (f.palette.map, f.palette.flags));
    let hash = |cells: &[u8]| hash(cells.iter().map(|&cell| u32::from(cell)));
    format!(
        "{place} {number} {n} {orientation} {} 0 0 {} 1 {} 1",
        colors.join(" "),
        hash(&map),
        hash(&flags),
    )
}
