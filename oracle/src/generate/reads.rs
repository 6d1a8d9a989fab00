//! Call lists to be read back: those of the original, and ones that are damaged or crafted.

use super::caches::{self, cache_of, CacheKind};
use super::crafted::{crafted, Craft};
use super::palettes::{self, draw_kinds, made, shape, PaletteKinds};
use super::random::{Beside, Random};
use super::read_damages::{damage, set_rooms};
use super::sides::small_sides;
use crate::original::{list, Palette};
use crate::reading::ReadRequest;

pub use super::read_damages::ReadDamage;

pub struct ReadKinds {
    pub palette: PaletteKinds,
    pub cache: CacheKind,
}

/// The original's list of a palette with its cache, and that palette.
pub fn read_request(seed: u64, index: u64) -> (ReadRequest, Palette, ReadKinds) {
    let (palette, palette_kinds) = palettes::palette(seed, index);
    let (cache, cache_kind) = caches::cache(seed, index, &palette);
    let random = &mut Random::beside(seed, index, Beside::Read);
    let words = list(&palette, &cache);
    let request = with_rooms(random, &palette, cache, words);
    let kinds = ReadKinds {
        palette: palette_kinds,
        cache: cache_kind,
    };
    (request, palette, kinds)
}

fn with_rooms(
    random: &mut Random,
    palette: &Palette,
    cache: Vec<u16>,
    words: Vec<u32>,
) -> ReadRequest {
    let mut request = ReadRequest {
        w: palette.w,
        h: palette.h,
        bd: palette.bd,
        cache,
        words,
        map_room: 0,
        flag_room: 0,
    };
    set_rooms(random, &mut request);
    request
}

pub struct DamagedKinds {
    /// `None` for the original's list.
    pub craft: Option<Craft>,
    pub damages: Vec<ReadDamage>,
}

/// A list that is damaged or crafted, or both.
pub fn damaged_request(seed: u64, index: u64) -> (ReadRequest, DamagedKinds) {
    let random = &mut Random::beside(seed, index, Beside::Read);
    let palette = if random.one_in(16) {
        palettes::palette(seed, index).0
    } else {
        let sides = small_sides(random);
        palette_of(random, sides)
    };
    damaged_list(random, &palette)
}

pub fn palette_of(random: &mut Random, sides: (usize, usize)) -> Palette {
    let kinds = draw_kinds(random);
    let shape = shape(random, sides);
    made(random, shape, kinds)
}

/// The original's list with any cache.
pub fn sound_list(random: &mut Random, palette: &Palette) -> ReadRequest {
    let kind = random.pick(CacheKind::ALL);
    let cache = cache_of(random, kind, palette);
    let words = list(palette, &cache);
    with_rooms(random, palette, cache, words)
}

/// One list in three is crafted, and then mostly left so.
pub fn damaged_list(random: &mut Random, palette: &Palette) -> (ReadRequest, DamagedKinds) {
    let craft = random.one_in(3).then(|| random.pick(Craft::ALL));
    let mut request = match craft {
        None => sound_list(random, palette),
        Some(kind) => {
            let (cache, words) = crafted(random, kind, palette);
            with_rooms(random, palette, cache, words)
        }
    };
    let damages = draw_damages(random, craft.is_some());
    for &kind in &damages {
        damage(random, kind, &mut request);
    }
    (request, DamagedKinds { craft, damages })
}

/// Two damages, or one to a crafted list, show which of two numbers comes first. A crafted list
/// with words left over is 22, and would be 23 without them.
fn draw_damages(random: &mut Random, crafted: bool) -> Vec<ReadDamage> {
    match random.below(8) {
        0 if crafted => vec![ReadDamage::LeftOver],
        2..=7 if crafted => vec![],
        0 | 1 if !crafted => vec![random.pick(ReadDamage::ALL), random.pick(ReadDamage::ALL)],
        _ => vec![random.pick(ReadDamage::ALL)],
    }
}
