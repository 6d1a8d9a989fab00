//! The listing program's text form: what it must print, read from document 01 and not from our
//! crates. Lines of fields of 8 columns: header, colours, cache, flags, rows.

use crate::check::{list_number, palette_number};
use crate::original::{list, unpack, Palette};
use std::fmt::Display;

const COLUMNS: usize = 8;

/// The output for a text.
pub fn answer(text: &[u8]) -> Vec<u8> {
    let (palette, cache) = match read(text) {
        Ok(read) => read,
        Err(number) => return text_of(&[vec![0, number]]),
    };
    match list_number(&palette, &cache) {
        0 => listed(&list(&palette, &cache)),
        number => text_of(&[vec![0, number]]),
    }
}

fn listed(words: &[u32]) -> Vec<u8> {
    let mut lines = vec![vec![words.len() as u32]];
    lines.extend(words.iter().map(|&word| {
        let (kind, first, second) = unpack(word);
        vec![kind, first, second]
    }));
    text_of(&lines)
}

/// Lines of numbers as text.
pub fn text_of<T: Display>(lines: &[Vec<T>]) -> Vec<u8> {
    let mut text = String::new();
    for line in lines {
        line.iter()
            .for_each(|number| text.push_str(&format!("{number:>COLUMNS$}")));
        text.push('\n');
    }
    text.into_bytes()
}

/// The lines of a palette with its cache.
pub fn lines_of(palette: &Palette, cache: &[u16]) -> Vec<Vec<u32>> {
    let (w, h, n) = (palette.w as u32, palette.h as u32, palette.colors.len());
    let (orientation, cached) = (u32::from(palette.transposed), cache.len() as u32);
    let mut lines = vec![
        vec![w, h, n as u32, palette.bd, orientation, cached],
        palette.colors.iter().map(|&color| color.into()).collect(),
        cache.iter().map(|&entry| entry.into()).collect(),
        palette.flags.iter().map(|&flag| flag.into()).collect(),
    ];
    let row = |row: &[u8]| row.iter().map(|&index| index.into()).collect();
    lines.extend(palette.map.chunks(palette.w).map(row));
    lines
}

/// The palette and cache of a text, or the number of its fault; text after the last row is one.
fn read(text: &[u8]) -> Result<(Palette, Vec<u16>), u32> {
    let mut rest = text;
    let read = take(&mut rest)?;
    if rest.is_empty() {
        Ok(read)
    } else {
        Err(17)
    }
}

/// Takes the first palette with its cache off the text, or gives the number of its fault.
pub fn take(rest: &mut &[u8]) -> Result<(Palette, Vec<u16>), u32> {
    let header = line(rest, 6)?;
    let (mut palette, n, cached) = read_header(&header)?;
    palette.colors = up_to(&line(rest, n)?);
    let cache = line(rest, cached)?;
    if cache.iter().any(|&entry| entry > 65_535) {
        return Err(17);
    }
    let lines = if palette.transposed {
        palette.w
    } else {
        palette.h
    };
    palette.flags = up_to(&line(rest, lines)?);
    for _ in 0..palette.h {
        palette.map.extend(up_to::<u8>(&line(rest, palette.w)?));
    }
    Ok((palette, up_to(&cache)))
}

/// A palette with no colours, flags and map yet; its n and its cache's length.
fn read_header(header: &[u32]) -> Result<(Palette, usize, usize), u32> {
    let [w, h, n, bd, orientation, cached] = *header else {
        return Err(17);
    };
    if orientation > 1 {
        return Err(17);
    }
    let palette = Palette {
        w: w as usize,
        h: h as usize,
        bd,
        colors: vec![],
        transposed: orientation == 1,
        flags: vec![],
        map: vec![],
    };
    match header_number(&palette, n, cached) {
        0 => Ok((palette, n as usize, cached as usize)),
        number => Err(number),
    }
}

/// The palette lacks its colours, so 1 and 2 can be told from any other number, and 11 and 12
/// are tested here.
fn header_number(palette: &Palette, n: u32, cached: u32) -> u32 {
    let number = palette_number(palette);
    if number == 1 || number == 2 {
        number
    } else if !(2..=8).contains(&n) {
        11
    } else if palette.transposed && (palette.w == 64 || palette.h == 64) {
        12
    } else if cached > 64 {
        13
    } else {
        0
    }
}

/// A number that is too great becomes the greatest, which is no colour, index or flag either.
fn up_to<T: TryFrom<u32> + MaxValue>(numbers: &[u32]) -> Vec<T> {
    let cut = |&number: &u32| T::try_from(number).unwrap_or(T::MAX);
    numbers.iter().map(cut).collect()
}

trait MaxValue {
    const MAX: Self;
}

impl MaxValue for u8 {
    const MAX: u8 = u8::MAX;
}

impl MaxValue for u16 {
    const MAX: u16 = u16::MAX;
}

/// Takes the next line off the text; 17 if it is not a line of so many fields.
fn line(rest: &mut &[u8], fields: usize) -> Result<Vec<u32>, u32> {
    let end = rest.iter().position(|&byte| byte == b'\n').ok_or(17u32)?;
    let (line, after) = (&rest[..end], &rest[end + 1..]);
    *rest = after;
    if line.len() != COLUMNS * fields {
        return Err(17);
    }
    line.chunks(COLUMNS).map(|f| field(f).ok_or(17)).collect()
}

/// Spaces, then digits to the last column, with no zero in front of others.
fn field(columns: &[u8]) -> Option<u32> {
    let digits = columns.trim_ascii_start();
    let spaces = &columns[..columns.len() - digits.len()];
    let leading_zero = digits.len() > 1 && digits[0] == b'0';
    if spaces.iter().any(|&byte| byte != b' ') || leading_zero {
        return None;
    }
    if !digits.iter().all(u8::is_ascii_digit) {
        return None;
    }
    std::str::from_utf8(digits).ok()?.parse().ok()
}
