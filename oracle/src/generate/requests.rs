//! Palettes with caches and rooms as our `list` and `pred` are asked; about one in ten is damaged.

use super::caches::{self, CacheKind, LONGEST};
use super::damages::{self, put_anywhere, stretch};
use super::palettes::{self, PaletteKinds};
use super::random::{Beside, Random};
use crate::check::top;
use crate::original::Palette;

/// A room is what is written, and so many places more or fewer.
#[derive(Clone, Debug)]
pub struct Request {
    pub palette: Palette,
    pub cache: Vec<u16>,
    pub word_spare: isize,
    pub value_spare: isize,
}

kinds! {
    /// What is wrong in a damaged request. Some damages happen to do no harm.
    Damage {
        Side = "side",
        Depth = "depth",
        ColorCount = "colour-count",
        ColorOrder = "colour-order",
        ColorAboveTop = "colour-above-top",
        Orientation = "orientation",
        CacheLength = "cache-length",
        MapLength = "map-length",
        FlagCount = "flag-count",
        Index = "index",
        Flag = "flag",
        FirstFlag = "first-flag",
        NotConstant = "not-constant",
        NoCopy = "no-copy",
        WordRoom = "word-room",
        ValueRoom = "value-room",
    }
}

pub struct RequestKinds {
    pub palette: PaletteKinds,
    pub cache: CacheKind,
    pub damages: Vec<Damage>,
}

pub fn request(seed: u64, index: u64) -> (Request, RequestKinds) {
    let (palette, palette_kinds) = palettes::palette(seed, index);
    let (cache, cache_kind) = caches::cache(seed, index, &palette);
    let random = &mut Random::beside(seed, index, Beside::Damage);
    let mut request = Request {
        palette,
        cache,
        word_spare: damages::spare(random) as isize,
        value_spare: damages::spare(random) as isize,
    };
    let damages = damages::draw(random, Damage::ALL);
    for &kind in &damages {
        damage(random, kind, &mut request);
    }
    let kinds = RequestKinds {
        palette: palette_kinds,
        cache: cache_kind,
        damages,
    };
    (request, kinds)
}

pub fn damage(random: &mut Random, kind: Damage, request: &mut Request) {
    let palette = &mut request.palette;
    match kind {
        Damage::Side => damages::damage_side(random, &mut palette.w, &mut palette.h),
        Damage::Depth => palette.bd = damages::depth(random),
        Damage::ColorCount => damage_color_count(random, palette),
        Damage::ColorOrder => damage_color_order(random, palette),
        Damage::ColorAboveTop => damage_last_color(random, palette),
        Damage::Orientation => palette.transposed = !palette.transposed,
        Damage::CacheLength => request.cache.resize(random.between(65, LONGEST + 8), 16),
        Damage::MapLength => stretch(random, &mut palette.map),
        Damage::FlagCount => stretch(random, &mut palette.flags),
        Damage::Index => {
            let index = random.between(palette.colors.len(), 255.max(palette.colors.len()));
            put_anywhere(random, &mut palette.map, index as u8);
        }
        Damage::Flag => {
            let flag = random.between(3, 255) as u8;
            put_anywhere(random, &mut palette.flags, flag);
        }
        Damage::FirstFlag => palette.flags.iter_mut().take(1).for_each(|flag| *flag = 2),
        Damage::NotConstant => put_anywhere(random, &mut palette.flags, 1),
        Damage::NoCopy => put_anywhere(random, &mut palette.flags, 2),
        Damage::WordRoom => request.word_spare = lack(random),
        Damage::ValueRoom => request.value_spare = lack(random),
    }
}

fn damage_color_count(random: &mut Random, palette: &mut Palette) {
    let count = random.pick(&[0, 1, 9, 10]);
    let mut next = palette.colors.last().map_or(0, |&color| color);
    palette.colors.resize_with(count, || {
        next = next.saturating_add(1);
        next
    });
}

fn damage_color_order(random: &mut Random, palette: &mut Palette) {
    if palette.colors.len() < 2 {
        return;
    }
    let at = random.between(1, palette.colors.len() - 1);
    if random.one_in(2) {
        palette.colors.swap(at - 1, at);
    } else {
        palette.colors[at] = palette.colors[at - 1];
    }
}

fn damage_last_color(random: &mut Random, palette: &mut Palette) {
    let least = top(palette.bd.clamp(8, 12)) as usize + 1;
    if let Some(last) = palette.colors.last_mut() {
        let most = random.pick(&[least, 65_535]);
        *last = random.between(least, most) as u16;
    }
}

/// One place too few, or any number up to a whole list's.
fn lack(random: &mut Random) -> isize {
    if random.one_in(2) {
        -1
    } else {
        -(random.between(1, 4096) as isize)
    }
}
