//! Texts for the report program: palettes one after the other, accepted ones and refused ones,
//! and texts of these with one damage.

use super::caches::{cache_of, CacheKind};
use super::palettes::{draw_kinds, made, shape, Shape};
use super::random::{Beside, Random};
use super::requests::{damage, Damage, Request};
use super::sides::{sides, small_sides};
use super::texts::{any_byte, text_from, TextKind};
use crate::listing_text::{lines_of, text_of};

kinds! {
    ReportKind {
        Empty = "empty",
        Sound = "sound",
        HeaderRefused = "header-refused",
        /// One palette becomes a damaged text of the listing program.
        PaletteDamaged = "palette-damaged",
        /// The whole text is damaged in the same ways.
        TextDamaged = "text-damaged",
        EmptyLine = "empty-line",
        BytesAfter = "bytes-after",
        CutOff = "cut-off",
    }
}

pub struct ReportKinds {
    pub report: ReportKind,
    /// Of one palette or of the whole text.
    pub damage: Option<TextKind>,
}

/// The numbers of a palette's text, line by line.
pub type Lines = Vec<Vec<u32>>;

/// One palette in so many is refused, or large; none if 0.
#[derive(Clone, Copy)]
struct Shares {
    refused: usize,
    large: usize,
}

/// What a palette in form may be refused by: 11 and 15. Some happen to do no harm.
const REFUSED: &[Damage] = &[
    Damage::ColorOrder,
    Damage::ColorAboveTop,
    Damage::Index,
    Damage::Flag,
    Damage::FirstFlag,
    Damage::NotConstant,
    Damage::NoCopy,
];

const GREATEST_SIDE: usize = 64;

/// Where a reader's buffer may end: powers of two, and the greatest length of a palette's text.
const PLACES: &[usize] = &[
    512, 1024, 4096, 8192, 16_384, 32_768, 33_972, 65_536, 131_072,
];

pub fn report_text(seed: u64, index: u64) -> (Vec<u8>, ReportKinds) {
    let random = &mut Random::beside(seed, index, Beside::Report);
    let report = draw_kind(random);
    let damage = random.pick(&TextKind::ALL[1..]);
    let damaged = matches!(report, ReportKind::PaletteDamaged | ReportKind::TextDamaged);
    let kinds = ReportKinds {
        report,
        damage: damaged.then_some(damage),
    };
    let blocks = match report {
        ReportKind::Empty => vec![],
        _ => draw_blocks(random),
    };
    (put_together(random, report, damage, blocks), kinds)
}

/// There is only one empty text.
fn draw_kind(random: &mut Random) -> ReportKind {
    if random.one_in(50) {
        ReportKind::Empty
    } else {
        random.pick(&ReportKind::ALL[1..])
    }
}

/// From 1 to 40 palettes; mostly small, so that many texts can be tried.
fn draw_blocks(random: &mut Random) -> Vec<Lines> {
    let most = random.pick(&[1, 2, 3, 8, 20, 40]);
    let count = random.between(1, most);
    let shares = Shares {
        refused: random.pick(&[0, 0, 8, 2, 1]),
        large: random.pick(&[0, 0, 0, 0, 0, 0, 0, 0, 0, 0, 8, 2]),
    };
    (0..count).map(|_| block(random, shares)).collect()
}

fn block(random: &mut Random, shares: Shares) -> Lines {
    let damages = draw_damages(random, shares.refused);
    if !happens(random, shares.large) {
        let sides = small_sides(random);
        any(random, sides, &damages)
    } else if random.one_in(2) {
        greatest(random, &damages)
    } else {
        let sides = sides(random);
        any(random, sides, &damages)
    }
}

/// A second damage shows which of 11 and 15 comes first.
fn draw_damages(random: &mut Random, refused: usize) -> Vec<Damage> {
    if !happens(random, refused) {
        return vec![];
    }
    let count = random.pick(&[1, 1, 1, 2]);
    (0..count).map(|_| random.pick(REFUSED)).collect()
}

fn happens(random: &mut Random, times: usize) -> bool {
    times > 0 && random.one_in(times)
}

/// Any depth, colours, cache and map.
pub fn any(random: &mut Random, sides: (usize, usize), damages: &[Damage]) -> Lines {
    let shape = shape(random, sides);
    let cache = random.pick(CacheKind::ALL);
    palette_lines(random, shape, cache, damages)
}

/// The longest text that a palette may have.
pub fn greatest(random: &mut Random, damages: &[Damage]) -> Lines {
    let shape = Shape {
        n: 8,
        ..shape(random, (GREATEST_SIDE, GREATEST_SIDE))
    };
    let cache = random.pick(&[CacheKind::Misses, CacheKind::TakenEarly]);
    palette_lines(random, shape, cache, damages)
}

fn palette_lines(random: &mut Random, shape: Shape, cache: CacheKind, damages: &[Damage]) -> Lines {
    let kinds = draw_kinds(random);
    let palette = made(random, shape, kinds);
    let cache = cache_of(random, cache, &palette);
    let mut request = Request {
        palette,
        cache,
        word_spare: 0,
        value_spare: 0,
    };
    for &kind in damages {
        damage(random, kind, &mut request);
    }
    lines_of(&request.palette, &request.cache)
}

/// The text of the palettes; a damage to one of them is done at any place.
fn put_together(
    random: &mut Random,
    kind: ReportKind,
    damage: TextKind,
    mut blocks: Vec<Lines>,
) -> Vec<u8> {
    let at = random.below(blocks.len().max(1));
    if kind == ReportKind::HeaderRefused {
        refuse_header(random, &mut blocks[at][0]);
    }
    let mut texts: Vec<Vec<u8>> = blocks.iter().map(|lines| text_of(lines)).collect();
    match kind {
        ReportKind::PaletteDamaged => texts[at] = text_from(random, damage, blocks.remove(at)),
        ReportKind::TextDamaged => texts = vec![text_from(random, damage, blocks.concat())],
        ReportKind::EmptyLine => texts.insert(at + random.below(2), b"\n".to_vec()),
        ReportKind::BytesAfter => texts.push(bytes_after(random)),
        ReportKind::CutOff => texts = vec![cut_off(random, texts.concat())],
        _ => {}
    }
    texts.concat()
}

/// One fault, or two one time in four, so that the order of the tests shows.
fn refuse_header(random: &mut Random, header: &mut [u32]) {
    for _ in 0..random.pick(&[1, 1, 1, 2]) {
        fault(random, header);
    }
}

/// Among the numbers are ones that a cut to 8 or 16 bits would make sound.
fn fault(random: &mut Random, header: &mut [u32]) {
    let (place, number) = match random.below(6) {
        0 => (
            random.below(2),
            random.pick(&[0, 65, 66, 128, 260, 65_540, 99_999_999]),
        ),
        1 => (3, random.pick(&[0, 7, 13, 16, 264, 65_544, 99_999_999])),
        2 => (2, random.pick(&[0, 1, 9, 10, 258, 65_538, 99_999_999])),
        3 => {
            header[4] = 1;
            (random.below(2), 64)
        }
        4 => (5, random.pick(&[65, 66, 256, 65_536, 99_999_999])),
        _ => (4, random.pick(&[2, 3, 256, 65_537, 99_999_999])),
    };
    header[place] = number;
}

fn bytes_after(random: &mut Random) -> Vec<u8> {
    let most = random.pick(&[1, 1, 60]);
    (0..random.between(1, most))
        .map(|_| any_byte(random))
        .collect()
}

/// Anywhere, or within a byte of a place where a reader's buffer may end.
fn cut_off(random: &mut Random, mut text: Vec<u8>) -> Vec<u8> {
    let mut places = PLACES.to_vec();
    places.retain(|&place| place < text.len());
    let at = if places.is_empty() || random.one_in(2) {
        random.below(text.len())
    } else {
        random.pick(&places) - 1 + random.below(3)
    };
    text.truncate(at);
    text
}

/// A small palette's text in form; one in four is damaged, and then mostly refused by 11 or 15.
pub fn small_text(seed: u64, index: u64) -> Vec<u8> {
    let random = &mut Random::beside(seed, index, Beside::Report);
    let shares = Shares {
        refused: 4,
        large: 0,
    };
    text_of(&block(random, shares))
}

/// An accepted palette's text of the greatest length.
pub fn greatest_text(seed: u64, index: u64) -> Vec<u8> {
    let random = &mut Random::beside(seed, index, Beside::Report);
    text_of(&greatest(random, &[]))
}
