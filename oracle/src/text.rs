//! The text form of cases and answers. README.md describes it.

use crate::check;
use crate::original::{self, Block, Corner, Found, Palette};
use std::fmt::{self, Display, Formatter, LowerHex};

/// One case, on one line.
#[derive(Clone, Debug)]
pub enum Case {
    Search(Block),
    List(Palette, Vec<u16>),
    Context(Corner),
}

impl Display for Case {
    fn fmt(&self, f: &mut Formatter<'_>) -> fmt::Result {
        match self {
            Case::Search(b) => {
                let (costs, samples) = (floats(&b.costs[..]), floats(&b.samples));
                let lambda = b.lambda.to_bits();
                write!(
                    f,
                    "search {} {} {} {lambda:08x} {costs} {samples}",
                    b.w, b.h, b.bd
                )
            }
            Case::List(p, cache) => {
                let (orientation, cache) = (u8::from(p.transposed), packed(cache, 4));
                let (colors, flags, map) = palette_fields(p);
                let (w, h, bd) = (p.w, p.h, p.bd);
                write!(
                    f,
                    "list {w} {h} {bd} {orientation} {colors} {flags} {map} {cache}"
                )
            }
            Case::Context(c) => {
                let map = packed(&c.map, 2);
                write!(f, "context {} {} {} {} {map}", c.stride, c.y, c.x, c.n)
            }
        }
    }
}

fn palette_fields(p: &Palette) -> (String, String, String) {
    (packed(&p.colors, 4), packed(&p.flags, 2), packed(&p.map, 2))
}

fn floats(values: &[f32]) -> String {
    let bits: Vec<u32> = values.iter().map(|value| value.to_bits()).collect();
    packed(&bits, 8)
}

/// Entries of so many hexadecimal digits each, without a gap; `-` if there are none.
fn packed<T: LowerHex>(entries: &[T], digits: usize) -> String {
    if entries.is_empty() {
        return "-".to_string();
    }
    entries
        .iter()
        .map(|entry| format!("{entry:0digits$x}"))
        .collect()
}

/// The answer to a case: the original's if document 01 accepts the case, else its number.
pub fn answer(case: &Case) -> String {
    match case {
        Case::Search(block) => search_answer(block),
        Case::List(palette, cache) => list_answer(palette, cache),
        Case::Context(corner) => context_answer(corner),
    }
}

fn search_answer(b: &Block) -> String {
    let number = check::search_number(&b.into());
    if (1..=7).contains(&number) {
        return format!("= {number}");
    }
    match original::search(&b.samples, b.w, b.h, b.bd, b.lambda, &b.costs) {
        Some(Found { palette, bits }) => {
            let (colors, flags, map) = palette_fields(&palette);
            let (orientation, bits) = (u8::from(palette.transposed), bits.to_bits());
            format!("= 0 {colors} {orientation} {bits:08x} {flags} {map}")
        }
        // The original says only `None`; which of 8, 9 and 10 it is comes from the block.
        None => format!("= {number}"),
    }
}

fn list_answer(palette: &Palette, cache: &[u16]) -> String {
    match check::list_number(palette, cache) {
        0 => {
            let words = original::list(palette, cache);
            let width = original::raw_width(&words);
            let pred = floats(&original::pred(palette));
            format!("= 0 {} {width} {} {pred}", words.len(), packed(&words, 8))
        }
        number => format!("= {number}"),
    }
}

fn context_answer(c: &Corner) -> String {
    match check::context_number(c) {
        0 => {
            let (context, order) = original::context(&c.map, c.stride, c.y, c.x, c.n);
            format!("= 0 {context} {}", packed(&order, 2))
        }
        number => format!("= {number}"),
    }
}

/// Reads one case.
pub fn parse(line: &str) -> Result<Case, String> {
    let fields: Vec<&str> = line.split_ascii_whitespace().collect();
    match fields[..] {
        ["search", w, h, bd, lambda, costs, samples] => Ok(Case::Search(Block {
            w: whole(w)?,
            h: whole(h)?,
            bd: whole(bd)? as u32,
            lambda: read_floats(lambda)?.first().copied().ok_or("no lambda")?,
            costs: read_floats(costs)?
                .try_into()
                .map_err(|_| "not 301 costs")?,
            samples: read_floats(samples)?,
        })),
        ["list", w, h, bd, orientation, colors, flags, map, cache] => {
            let palette = Palette {
                w: whole(w)?,
                h: whole(h)?,
                bd: whole(bd)? as u32,
                colors: unpacked(colors, 4)?,
                transposed: whole(orientation)? != 0,
                flags: unpacked(flags, 2)?,
                map: unpacked(map, 2)?,
            };
            Ok(Case::List(palette, unpacked(cache, 4)?))
        }
        ["context", stride, y, x, n, map] => Ok(Case::Context(Corner {
            map: unpacked(map, 2)?,
            stride: whole(stride)?,
            y: whole(y)?,
            x: whole(x)?,
            n: whole(n)?,
        })),
        _ => Err("not a case: wrong first word or number of fields".to_string()),
    }
}

fn whole(field: &str) -> Result<usize, String> {
    field.parse().map_err(|e| format!("{field}: {e}"))
}

fn read_floats(field: &str) -> Result<Vec<f32>, String> {
    let bits: Vec<u32> = unpacked(field, 8)?;
    Ok(bits.into_iter().map(f32::from_bits).collect())
}

fn unpacked<T: TryFrom<u32>>(field: &str, digits: usize) -> Result<Vec<T>, String> {
    if field == "-" {
        return Ok(vec![]);
    }
    let fault = || format!("not entries of {digits} hexadecimal digits");
    if !field.len().is_multiple_of(digits) || !field.bytes().all(|b| b.is_ascii_hexdigit()) {
        return Err(fault());
    }
    let entry = |at: usize| {
        let value = u32::from_str_radix(&field[at..at + digits], 16).map_err(|_| fault())?;
        T::try_from(value).map_err(|_| fault())
    };
    (0..field.len()).step_by(digits).map(entry).collect()
}
