//! What a search must answer, held beside an answer of the package `palette-station`.

use palette_oracle::map_searches::Split;
use palette_oracle::Found;
use palette_station::{Colors, PaletteView, Refusal};

/// A name for what is compared, and whether it is the same.
pub type Same = (&'static str, bool);

/// Document 01's number, and the original's palette if there is one, with its head and map bits.
pub struct Due {
    pub number: u32,
    pub found: Option<Found>,
    pub split: Split,
}

impl Due {
    pub fn same(&self, answer: &Result<PaletteView, Refusal>) -> Vec<Same> {
        match (answer, &self.found) {
            (Ok(palette), Some(found)) => self.same_palette(palette, found),
            (Err(refusal), None) => vec![("number", refusal.number() == self.number)],
            // Only one of the two has a palette.
            _ => vec![("number", false)],
        }
    }

    fn same_palette(&self, ours: &PaletteView, found: &Found) -> Vec<Same> {
        let Found { palette, bits } = found;
        let block = (ours.width, ours.height, ours.bd);
        // Equal ones are equal in all eight places, not only in the first n.
        let colors = Colors::new(&palette.colors);
        vec![
            ("number", self.number == 0),
            ("block", block == (palette.w, palette.h, palette.bd)),
            ("n", ours.colors.len() == palette.colors.len()),
            ("colours", colors == Ok(ours.colors)),
            ("orientation", ours.transposed == palette.transposed),
            ("estimate", ours.estimate().to_bits() == bits.to_bits()),
            ("head", ours.head.to_bits() == self.split.head.to_bits()),
            (
                "map bits",
                ours.map_bits.to_bits() == self.split.map_bits.to_bits(),
            ),
            ("map", ours.map == palette.map),
            ("flags", ours.flags == palette.flags),
        ]
    }
}
