//! Reads a call list back. Written from document 02's L2 and document 01's rules, not from our
//! crates, so that it can bear witness against them.

use crate::check::{self, ceil_log2, list_number, sides_fit, step_width, top};
use crate::original::{list, unpack, Palette};

/// What a reading is asked.
#[derive(Clone, Debug, PartialEq)]
pub struct ReadRequest {
    pub w: usize,
    pub h: usize,
    pub bd: u32,
    pub cache: Vec<u16>,
    pub words: Vec<u32>,
    pub map_room: usize,
    pub flag_room: usize,
}

/// What stands in a list that reads to its end, whether or not the listing would write it.
#[derive(Clone, Debug, PartialEq)]
pub struct Reading {
    /// Its colours are sorted; they may be equal, or above the top level.
    pub palette: Palette,
    /// The cache bits that were sent.
    pub bits: Vec<bool>,
    pub literals: Vec<u16>,
    /// The width that the steps begin with; none for fewer than two literals.
    pub width: Option<u32>,
}

const BYPASS: u32 = 1;
const UNIFORM: u32 = 2;
const SIZE: u32 = 3;
const ROW: u32 = 4;
const COLOR: u32 = 5;

/// The row context of the first line.
const FIRST_LINE: u32 = 3;

/// The palette of a list, or the number that refuses it.
pub fn read(request: &ReadRequest) -> Result<Palette, u32> {
    let reading = read_words(request)?;
    if would_be_listed(&reading, request) {
        Ok(reading.palette)
    } else {
        Err(23)
    }
}

/// Whether the original lists the palette by these words.
pub fn would_be_listed(reading: &Reading, request: &ReadRequest) -> bool {
    let palette = &reading.palette;
    list_number(palette, &request.cache) == 0 && list(palette, &request.cache) == request.words
}

/// All numbers but 23.
pub fn read_words(request: &ReadRequest) -> Result<Reading, u32> {
    test_limits(request)?;
    let words = &mut Words {
        words: &request.words,
        place: 0,
    };
    let n = words.take(SIZE, 0, 7)? as usize + 2;
    let (bits, mut colors) = take_bits(words, n, &request.cache)?;
    let (literals, width) = take_literals(words, n - colors.len(), request.bd)?;
    colors.extend(&literals);
    colors.sort_unstable();
    let palette = take_map(words, request, colors)?;
    if words.place < request.words.len() {
        return Err(22);
    }
    Ok(Reading {
        palette,
        bits,
        literals,
        width,
    })
}

/// The tests before the first word, in their order.
fn test_limits(request: &ReadRequest) -> Result<(), u32> {
    let (w, h) = (request.w, request.h);
    if !sides_fit(w, h) {
        Err(1)
    } else if !(8..=12).contains(&request.bd) {
        Err(2)
    } else if request.cache.len() > 64 {
        Err(13)
    } else if request.map_room < w * h || request.flag_room < w.max(h) {
        Err(7)
    } else {
        Ok(())
    }
}

/// The list and the place reached in it.
struct Words<'a> {
    words: &'a [u32],
    place: usize,
}

impl Words<'_> {
    /// Takes one word of this kind and first field; its second field is below `end`. Where no
    /// value is right, `end` is 0.
    fn take(&mut self, kind: u32, first: u32, end: u32) -> Result<u32, u32> {
        let &word = self.words.get(self.place).ok_or(20u32)?;
        let (its_kind, its_first, second) = unpack(word);
        if (its_kind, its_first) != (kind, first) || second >= end {
            return Err(21);
        }
        self.place += 1;
        Ok(second)
    }

    fn take_bit(&mut self) -> Result<bool, u32> {
        Ok(self.take(BYPASS, 1, 2)? == 1)
    }
}

/// The bits, and the entries taken by them. Each 1 is a colour taken, a repeated one too.
fn take_bits(words: &mut Words, n: usize, cache: &[u16]) -> Result<(Vec<bool>, Vec<u16>), u32> {
    let (mut bits, mut taken) = (vec![], vec![]);
    for &entry in cache {
        if taken.len() == n {
            break;
        }
        let bit = words.take_bit()?;
        bits.push(bit);
        if bit {
            taken.push(entry);
        }
    }
    Ok((bits, taken))
}

/// So many colours as literals, and the width that their steps begin with.
fn take_literals(words: &mut Words, count: usize, bd: u32) -> Result<(Vec<u16>, Option<u32>), u32> {
    if count == 0 {
        return Ok((vec![], None));
    }
    let mut color = words.take(BYPASS, bd, 1 << bd)?;
    let mut literals = vec![color as u16];
    if count == 1 {
        return Ok((literals, None));
    }
    let first_width = bd - 3 + words.take(BYPASS, 2, 4)?;
    let mut width = first_width;
    for _ in 1..count {
        // A step may not go past the top level; from there no step is right.
        let range = top(bd) - color;
        color += 1 + words.take(BYPASS, width, range.min(1 << width))?;
        literals.push(color as u16);
        width = width.min(ceil_log2(top(bd) - color));
    }
    Ok((literals, Some(first_width)))
}

fn take_map(words: &mut Words, request: &ReadRequest, colors: Vec<u16>) -> Result<Palette, u32> {
    let (w, h) = (request.w, request.h);
    let transposed = w < 64 && h < 64 && words.take_bit()?;
    let mut palette = Palette {
        w,
        h,
        bd: request.bd,
        colors,
        transposed,
        flags: vec![],
        map: vec![0; w * h],
    };
    let (lines, _) = check::lines(&palette);
    for line in 0..lines {
        let (context, end) = match palette.flags.last() {
            None => (FIRST_LINE, 2),
            Some(&before) => (u32::from(before), 3),
        };
        let flag = words.take(ROW, context, end)?;
        take_line(words, &mut palette, line, flag)?;
        palette.flags.push(flag as u8);
    }
    Ok(palette)
}

fn take_line(words: &mut Words, palette: &mut Palette, line: usize, flag: u32) -> Result<(), u32> {
    let (_, len) = check::lines(palette);
    for at in 0..len {
        let place = cell(palette, line, at);
        palette.map[place] = match flag {
            1 if at > 0 => palette.map[cell(palette, line, 0)],
            2 => palette.map[cell(palette, line - 1, at)],
            _ => take_index(words, palette, place)?,
        };
    }
    Ok(())
}

/// The place in the map of a line's cell.
fn cell(palette: &Palette, line: usize, at: usize) -> usize {
    if palette.transposed {
        at * palette.w + line
    } else {
        line * palette.w + at
    }
}

/// The index of a cell that is sent, by its neighbours as document 01 has them.
fn take_index(words: &mut Words, palette: &Palette, place: usize) -> Result<u8, u32> {
    let (w, n, map) = (palette.w, palette.colors.len() as u32, &palette.map);
    let mut ranked = |context, front: &[u8]| {
        let rank = words.take(COLOR, (n - 2) * 5 + context, n)?;
        Ok(index_at(front, n as u8, rank as usize))
    };
    match (place / w, place % w) {
        (0, 0) => return Ok(words.take(UNIFORM, n, n)? as u8),
        (0, _) => return ranked(0, &[map[place - 1]]),
        (_, 0) => return ranked(0, &[map[place - w]]),
        _ => {}
    }
    let (left, above, diagonal) = (map[place - 1], map[place - w], map[place - w - 1]);
    match (left == above, left == diagonal, diagonal == above) {
        (true, true, _) => ranked(4, &[left]),
        (true, false, _) => ranked(3, &[left, diagonal]),
        (false, true, _) => ranked(2, &[left, above]),
        (false, false, true) => ranked(2, &[above, left]),
        (false, false, false) => ranked(1, &[left, above, diagonal]),
    }
}

/// The index at a rank: first those in front, then the others ascending.
fn index_at(front: &[u8], n: u8, rank: usize) -> u8 {
    let others = (0..n).filter(|index| !front.contains(index));
    let mut order = front.iter().copied().chain(others);
    order.nth(rank).expect("a rank is below n")
}

kinds! {
    /// Why the listing would not write a list that reads to its end.
    Unlisted {
        EqualColors = "equal-colours",
        AboveTop = "above-top",
        /// A 0 for an entry whose colour is then sent as a literal, or taken at its repeat.
        Passed = "passed-over",
        /// The steps begin wider than they need.
        Wider = "wider",
    }
}

/// All that the four rules find; nothing exactly where the listing would write the list.
pub fn unlisted(reading: &Reading, cache: &[u16]) -> Vec<Unlisted> {
    let Palette { bd, colors, .. } = &reading.palette;
    let least = step_width(&reading.literals, *bd);
    let holds = |kind: &Unlisted| match kind {
        Unlisted::EqualColors => colors.windows(2).any(|pair| pair[0] == pair[1]),
        Unlisted::AboveTop => taken(reading, cache).any(|color| u32::from(color) > top(*bd)),
        Unlisted::Passed => passed_over(reading, cache),
        Unlisted::Wider => reading.width.is_some_and(|width| width != least),
    };
    Unlisted::ALL.iter().copied().filter(holds).collect()
}

fn taken<'a>(reading: &'a Reading, cache: &'a [u16]) -> impl Iterator<Item = u16> + 'a {
    let entries = cache.iter().zip(&reading.bits);
    entries.filter(|entry| *entry.1).map(|entry| *entry.0)
}

fn passed_over(reading: &Reading, cache: &[u16]) -> bool {
    let entries: Vec<(&u16, &bool)> = cache.iter().zip(&reading.bits).collect();
    let sent = |at: usize| {
        let color = entries[at].0;
        reading.literals.contains(color) || entries[at..].contains(&(color, &true))
    };
    (0..entries.len()).any(|at| !entries[at].1 && sent(at))
}
