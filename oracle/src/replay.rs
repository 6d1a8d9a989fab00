//! The palettes that the crate `replay` is run on, and the lines that it must print.

use crate::answers::{list_answer, pred_answer, ListAnswer, PredAnswer};
use crate::generate::requests::{request, Request};

/// What the crate's buffers hold.
const PLACES: usize = 4240;

pub struct Replayed {
    pub request: Request,
    pub listed: ListAnswer,
    pub predicted: PredAnswer,
}

/// The first requests of a seed whose numbers fit the form.
pub fn replayed(seed: u64, count: usize) -> impl Iterator<Item = Replayed> {
    (0..)
        .map(move |index| answered(request(seed, index).0))
        .filter(fits)
        .take(count)
}

fn answered(request: Request) -> Replayed {
    let (listed, predicted) = (list_answer(&request), pred_answer(&request));
    Replayed {
        request,
        listed,
        predicted,
    }
}

fn fits(replayed: &Replayed) -> bool {
    let palette = &replayed.request.palette;
    palette.w.max(palette.h).max(palette.bd as usize) < 256
        && palette.flags.len().max(replayed.request.cache.len()) < 256
        && palette.map.len() <= PLACES
        && replayed.listed.room.max(replayed.predicted.room) <= PLACES
}

/// The bytes of a palette: 29 of fixed places, then cache, flags and map.
pub fn bytes(replayed: &Replayed) -> Vec<u8> {
    let Request { palette, cache, .. } = &replayed.request;
    let mut bytes = vec![palette.w as u8, palette.h as u8, palette.bd as u8];
    bytes.extend([palette.colors.len() as u8, u8::from(palette.transposed)]);
    bytes.extend([cache.len() as u8, palette.flags.len() as u8]);
    put_pair(&mut bytes, palette.map.len() as u16);
    put_pair(&mut bytes, replayed.listed.room as u16);
    put_pair(&mut bytes, replayed.predicted.room as u16);
    for &value in eight(&palette.colors).iter().chain(cache) {
        put_pair(&mut bytes, value);
    }
    bytes.extend(&palette.flags);
    bytes.extend(&palette.map);
    bytes
}

pub(crate) fn put_pair(bytes: &mut Vec<u8>, value: u16) {
    bytes.extend(value.to_le_bytes());
}

/// Colours in eight places, zeros behind them.
fn eight(colors: &[u16]) -> [u16; 8] {
    std::array::from_fn(|at| colors.get(at).copied().unwrap_or(0))
}

/// The place is counted from 1; the two ones say that the places behind words and values kept
/// what they held.
pub fn line(place: usize, replayed: &Replayed) -> String {
    let ListAnswer {
        number,
        words,
        raw_width,
        ..
    } = &replayed.listed;
    let (count, hash) = (words.len(), hash(words.iter().copied()));
    let PredAnswer {
        number: refusal,
        values,
        ..
    } = &replayed.predicted;
    let bits = self::hash(values.iter().map(|value| value.to_bits()));
    format!("{place} {number} {count} {raw_width} {hash} 1 {refusal} {bits} 1")
}

pub fn hash(words: impl Iterator<Item = u32>) -> u64 {
    words.fold(0, |hash, word| {
        (hash * 65_599 + u64::from(word)) % 4_294_967_291
    })
}
