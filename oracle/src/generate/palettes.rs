//! Palettes that document 01 accepts, for the listing and for `pred`.

use super::blocks::block;
use super::levels::{levels, Spacing};
use super::random::Random;
use super::sides::{depth, sides};
use crate::check::{lines, top};
use crate::original::{search, Palette};

kinds! {
    /// Which flags the lines have.
    FlagKind {
        Cells = "cells",
        Constants = "constants",
        Copies = "copies",
        Mixed = "mixed",
        Disguised = "disguised",
    }
}

kinds! {
    /// What stands in a line coded cell by cell.
    CellKind {
        Scattered = "scattered",
        Runs = "runs",
        NearCopy = "near-copy",
        TwoIndices = "two-indices",
    }
}

/// How a palette was made.
pub type Made = (Spacing, FlagKind, CellKind);

/// `None` for a palette that the search found.
pub type PaletteKinds = Option<Made>;

/// What is drawn before the colours.
#[derive(Clone, Copy, Debug)]
pub struct Shape {
    pub w: usize,
    pub h: usize,
    pub bd: u32,
    pub n: usize,
}

/// Any depth and number of colours.
pub fn shape(random: &mut Random, (w, h): (usize, usize)) -> Shape {
    let bd = depth(random);
    let n = random.between(2, 8);
    Shape { w, h, bd, n }
}

pub fn names(kinds: PaletteKinds) -> String {
    kinds.map_or("found".to_string(), |(spacing, flags, cells)| {
        format!(
            "spacing={} flags={} cells={}",
            spacing.name(),
            flags.name(),
            cells.name()
        )
    })
}

/// One palette in eight is a found one, if its block has one.
pub fn palette(seed: u64, index: u64) -> (Palette, PaletteKinds) {
    let random = &mut Random::new(seed, index);
    if random.one_in(8) {
        if let Some(palette) = found(seed, index) {
            return (palette, None);
        }
    }
    let kinds = draw_kinds(random);
    let sides = sides(random);
    let shape = shape(random, sides);
    (made(random, shape, kinds), Some(kinds))
}

pub fn draw_kinds(random: &mut Random) -> Made {
    (
        random.pick(Spacing::ALL),
        random.pick(FlagKind::ALL),
        random.pick(CellKind::ALL),
    )
}

fn found(seed: u64, index: u64) -> Option<Palette> {
    let (b, _) = block(seed, index);
    search(&b.samples, b.w, b.h, b.bd, b.lambda, &b.costs).map(|found| found.palette)
}

pub fn made(random: &mut Random, shape: Shape, (spacing, flags, cells): Made) -> Palette {
    let Shape { w, h, bd, n } = shape;
    let colors = levels(random, spacing, n, top(bd))
        .iter()
        .map(|&color| color as u16)
        .collect();
    let transposed = w < 64 && h < 64 && random.one_in(2);
    let mut palette = Palette {
        w,
        h,
        bd,
        colors,
        transposed,
        flags: vec![],
        map: vec![0; w * h],
    };
    fill_lines(random, &mut palette, flags, cells);
    palette
}

fn fill_lines(random: &mut Random, palette: &mut Palette, flags: FlagKind, cells: CellKind) {
    let (count, len) = lines(palette);
    let n = palette.colors.len();
    let mut before = vec![random.below(n) as u8; len];
    for number in 0..count {
        let flag = draw_flag(random, flags, number == 0);
        // A disguised line could have had a cheaper flag.
        let content = if flags == FlagKind::Disguised {
            random.between(0, 2) as u8
        } else {
            flag
        };
        let line = match flag.max(content) {
            0 => coded_line(random, cells, &before, n),
            1 => vec![random.below(n) as u8; len],
            _ if flag == 1 => vec![before[0]; len],
            _ => before.clone(),
        };
        put_line(palette, number, &line);
        palette.flags.push(flag);
        before = line;
    }
}

fn draw_flag(random: &mut Random, kind: FlagKind, first: bool) -> u8 {
    match kind {
        FlagKind::Cells => 0,
        FlagKind::Constants => 1,
        FlagKind::Copies if first || random.one_in(8) => random.pick(&[0, 1]),
        FlagKind::Copies => 2,
        FlagKind::Mixed if first => random.pick(&[0, 1]),
        FlagKind::Mixed => random.pick(&[0, 1, 2]),
        FlagKind::Disguised => random.pick(&[0, 0, 1]),
    }
}

fn coded_line(random: &mut Random, kind: CellKind, before: &[u8], n: usize) -> Vec<u8> {
    let pair = [random.below(n) as u8, random.below(n) as u8];
    let mut last = pair[0];
    let mut cell = |above: u8| {
        let fresh = random.below(n) as u8;
        last = match kind {
            CellKind::Scattered => fresh,
            CellKind::Runs if random.one_in(4) => fresh,
            CellKind::Runs => last,
            CellKind::NearCopy if random.one_in(10) => fresh,
            CellKind::NearCopy => above,
            CellKind::TwoIndices => random.pick(&pair),
        };
        last
    };
    before.iter().map(|&above| cell(above)).collect()
}

fn put_line(palette: &mut Palette, number: usize, line: &[u8]) {
    let (start, step) = if palette.transposed {
        (number, palette.w)
    } else {
        (number * palette.w, 1)
    };
    for (at, &index) in line.iter().enumerate() {
        palette.map[start + at * step] = index;
    }
}
