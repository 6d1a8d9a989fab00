//! Texts for the listing program: sound ones, and ones damaged in a number or in a byte.

use super::caches::cache;
use super::palettes::palette;
use super::random::{Beside, Random};
use crate::listing_text::{lines_of, text_of};

kinds! {
    TextKind {
        Sound = "sound",
        HeaderChanged = "header-changed",
        NumberChanged = "number-changed",
        OutOfRange = "out-of-range",
        LinesExchanged = "lines-exchanged",
        LineLost = "line-lost",
        LineRepeated = "line-repeated",
        ByteChanged = "byte-changed",
        ByteAdded = "byte-added",
        ByteLost = "byte-lost",
        CutOff = "cut-off",
        LeadingZero = "leading-zero",
        Tab = "tab",
        CarriageReturns = "carriage-returns",
        TextAfter = "text-after",
        Empty = "empty",
        Long = "long",
        RandomBytes = "random-bytes",
    }
}

const MEGABYTE: usize = 1 << 20;

/// What a number of the text becomes.
const NUMBERS: &[u32] = &[
    0, 1, 2, 3, 7, 8, 9, 12, 13, 63, 64, 65, 255, 4095, 99_999_999,
];

const BYTES: &[u8] = b" 0123456789\n\t\r-+.\0";

pub fn text(seed: u64, index: u64) -> (Vec<u8>, TextKind) {
    let random = &mut Random::beside(seed, index, Beside::Text);
    let kind = random.pick(TextKind::ALL);
    (text_from(random, kind, sound_lines(seed, index)), kind)
}

/// A text of a kind, made from sound lines.
pub fn text_from(random: &mut Random, kind: TextKind, lines: Vec<Vec<u32>>) -> Vec<u8> {
    match kind {
        TextKind::Empty => random.pick::<&[u8]>(&[b"", b"", b"\n", b" "]).to_vec(),
        TextKind::RandomBytes => random_bytes(random),
        _ => damaged(random, kind, lines),
    }
}

fn sound_lines(seed: u64, index: u64) -> Vec<Vec<u32>> {
    let (palette, _) = palette(seed, index);
    let (cache, _) = cache(seed, index, &palette);
    lines_of(&palette, &cache)
}

fn damaged(random: &mut Random, kind: TextKind, mut lines: Vec<Vec<u32>>) -> Vec<u8> {
    damage_lines(random, kind, &mut lines);
    let mut text = text_of(&lines);
    damage_bytes(random, kind, &mut text);
    text
}

fn damage_lines(random: &mut Random, kind: TextKind, lines: &mut Vec<Vec<u32>>) {
    let at = random.below(lines.len());
    match kind {
        TextKind::HeaderChanged => lines[0][random.below(6)] = random.pick(NUMBERS),
        TextKind::NumberChanged => change_number(random, &mut lines[at]),
        TextKind::OutOfRange => raise_number(random, lines),
        TextKind::LinesExchanged => lines.swap(at, at.saturating_sub(1)),
        TextKind::LineLost => drop(lines.remove(at)),
        TextKind::LineRepeated => lines.insert(at, lines[at].clone()),
        _ => {}
    }
}

fn change_number(random: &mut Random, line: &mut [u32]) {
    if line.is_empty() {
        return;
    }
    let at = random.below(line.len());
    line[at] = match random.below(3) {
        0 => line[at] + 1,
        1 => line[at].saturating_sub(1),
        _ => random.pick(NUMBERS),
    };
}

/// A number that, cut to its type's width, would be the sound one again.
fn raise_number(random: &mut Random, lines: &mut [Vec<u32>]) {
    let which = random.between(1, lines.len().min(5) - 1);
    let width = if which < 3 { 65_536 } else { 256 };
    let line = &mut lines[which];
    if !line.is_empty() {
        let at = random.below(line.len());
        line[at] += width * random.pick(&[1, 1, 2, 256]);
    }
}

fn damage_bytes(random: &mut Random, kind: TextKind, text: &mut Vec<u8>) {
    let at = random.below(text.len());
    match kind {
        TextKind::ByteChanged => text[at] = any_byte(random),
        TextKind::ByteAdded => text.insert(at, any_byte(random)),
        TextKind::ByteLost => drop(text.remove(at)),
        TextKind::CutOff => cut_off(random, text, at),
        TextKind::LeadingZero => change_space(text, at, b'0'),
        TextKind::Tab => change_space(text, at, b'\t'),
        TextKind::CarriageReturns => add_returns(random, text),
        TextKind::TextAfter => {
            text.extend(random.pick::<&[u8]>(&[b"\n", b" ", b"0", b"       0\n"]))
        }
        TextKind::Long => lengthen(random, text),
        _ => {}
    }
}

pub fn any_byte(random: &mut Random) -> u8 {
    if random.one_in(2) {
        random.pick(BYTES)
    } else {
        random.bits() as u8
    }
}

/// Only the last newline is lost one time in four.
fn cut_off(random: &mut Random, text: &mut Vec<u8>, at: usize) {
    let end = if random.one_in(4) { text.len() - 1 } else { at };
    text.truncate(end);
}

/// The last space before a number, from a place on.
fn change_space(text: &mut [u8], from: usize, byte: u8) {
    let pairs = |at: &usize| text[*at] == b' ' && text[at + 1].is_ascii_digit();
    if let Some(at) = (from..text.len() - 1).find(pairs) {
        text[at] = byte;
    }
}

/// At every newline, or at the first only.
fn add_returns(random: &mut Random, text: &mut Vec<u8>) {
    let lines = if random.one_in(2) { usize::MAX } else { 1 };
    let mut changed = Vec::new();
    for (number, line) in text.split_inclusive(|&byte| byte == b'\n').enumerate() {
        let (body, newline) = line.split_at(line.len() - 1);
        changed.extend(body);
        changed.extend(if number < lines { &b"\r"[..] } else { b"" });
        changed.extend(newline);
    }
    *text = changed;
}

/// More rows, spaces or newlines behind, or the header alone and then digits.
fn lengthen(random: &mut Random, text: &mut Vec<u8>) {
    let filling: &[u8] =
        random.pick(&[b"       0", b"       0\n", b"        ", b"\n\n\n\n\n\n\n\n"]);
    if random.one_in(4) {
        text.truncate(48);
    }
    while text.len() < MEGABYTE {
        text.extend(filling);
    }
}

fn random_bytes(random: &mut Random) -> Vec<u8> {
    let length = random.between(1, 400);
    let digits = random.one_in(2);
    let byte = |_| {
        if digits {
            random.pick(b"    0123456789\n")
        } else {
            random.bits() as u8
        }
    };
    (0..length).map(byte).collect()
}
