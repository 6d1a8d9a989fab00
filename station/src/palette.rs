//! A palette with its index map, owned or lent.

use crate::archive::{self, Lent};
use crate::limits::MAX_COLORS;
use crate::Refusal;
use std::ops::Deref;

/// Up to eight colours, ascending in an accepted palette. They read as a slice.
///
/// ```
/// use palette_station::Colors;
///
/// let colors = Colors::new(&[16, 80, 235])?;
/// assert_eq!(colors.len(), 3);
/// assert_eq!(colors[1], 80);
/// # Ok::<(), palette_station::Refusal>(())
/// ```
#[derive(Clone, Copy, Debug, Default, PartialEq, Eq, Hash)]
pub struct Colors {
    n: usize,
    eight: [u16; MAX_COLORS],
}

impl Colors {
    /// Takes colours as they are; more than eight are refused by 11. Too few, or out of order,
    /// are refused where the palette is used.
    ///
    /// ```
    /// use palette_station::{Colors, Refusal};
    ///
    /// assert!(Colors::new(&[0, 255]).is_ok());
    /// assert_eq!(Colors::new(&[0; 9]), Err(Refusal::COLORS));
    /// ```
    pub fn new(colors: &[u16]) -> Result<Colors, Refusal> {
        let mut eight = [0; MAX_COLORS];
        let places = eight.get_mut(..colors.len()).ok_or(Refusal::COLORS)?;
        places.copy_from_slice(colors);
        Ok(Colors {
            n: colors.len(),
            eight,
        })
    }

    /// From the archive's fields, n and eight colours. The archive's n is at most 8 and its
    /// colours fit u16; the cut and the cast only keep the types.
    pub(crate) fn from_fields(n: u32, colors: &[u32]) -> Colors {
        let mut eight = [0; MAX_COLORS];
        for (place, &color) in eight.iter_mut().zip(colors) {
            *place = color as u16;
        }
        let n = (n as usize).min(MAX_COLORS);
        Colors { n, eight }
    }
}

/// The colours in use.
///
/// ```
/// use palette_station::Colors;
///
/// let colors = Colors::new(&[10, 20]).unwrap();
/// assert_eq!(&colors[..], [10, 20]);
/// ```
impl Deref for Colors {
    type Target = [u16];

    fn deref(&self) -> &[u16] {
        &self.eight[..self.n]
    }
}

/// A palette with its index map. The search makes accepted ones; one made by hand is tested
/// wherever it is used.
///
/// ```
/// use palette_station::{list, Colors, Palette, Refusal};
///
/// let mut palette = Palette {
///     width: 4,
///     height: 2,
///     bd: 8,
///     colors: Colors::new(&[16, 235])?,
///     transposed: false,
///     map: vec![0, 0, 0, 0, 0, 0, 1, 1],
///     flags: vec![1, 0],
///     head: 0.0,
///     map_bits: 0.0,
/// };
/// assert_eq!(list(&palette, &[])?.words.len(), 12);
/// // The second line is no copy of the first.
/// palette.flags[1] = 2;
/// assert_eq!(list(&palette, &[]), Err(Refusal::MAP));
/// # Ok::<(), Refusal>(())
/// ```
#[derive(Clone, Debug, PartialEq)]
pub struct Palette {
    /// Samples in a row.
    pub width: usize,
    /// Rows.
    pub height: usize,
    /// Bits of a sample, 8 to 12.
    pub bd: u32,
    /// The colours; an index counts from 0 in them.
    pub colors: Colors,
    /// Whether the lines are columns.
    pub transposed: bool,
    /// An index for each cell, row by row, also when transposed.
    pub map: Vec<u8>,
    /// A flag for each line: 0 every cell coded, 1 one index for the line, 2 a copy of the line
    /// before.
    pub flags: Vec<u8>,
    /// What the search counted for mode, size, colours and orientation, in bits: what the colours
    /// cost. 0 in a palette that the search did not make, as one that was read back; a list does not
    /// hold it, and listing and prediction do not look at it.
    pub head: f32,
    /// What the search counted for flags and map, in bits: what the map costs. 0 like `head`.
    pub map_bits: f32,
}

/// A palette whose map and flags are lent. See [`Palette`] for the fields.
///
/// ```
/// use palette_station::{list_into, Colors, PaletteView, MAX_WORDS};
///
/// let palette = PaletteView {
///     width: 4,
///     height: 2,
///     bd: 8,
///     colors: Colors::new(&[16, 235])?,
///     transposed: false,
///     map: &[0, 0, 0, 0, 0, 0, 1, 1],
///     flags: &[1, 0],
///     head: 0.0,
///     map_bits: 0.0,
/// };
/// let mut words = [0; MAX_WORDS];
/// assert_eq!(list_into(&palette, &[], &mut words)?.raw_width, 20);
/// # Ok::<(), palette_station::Refusal>(())
/// ```
#[derive(Clone, Copy, Debug, PartialEq)]
pub struct PaletteView<'a> {
    /// Samples in a row.
    pub width: usize,
    /// Rows.
    pub height: usize,
    /// Bits of a sample, 8 to 12.
    pub bd: u32,
    /// The colours.
    pub colors: Colors,
    /// Whether the lines are columns.
    pub transposed: bool,
    /// An index for each cell, row by row.
    pub map: &'a [u8],
    /// A flag for each line.
    pub flags: &'a [u8],
    /// What the colours cost; 0 if the search did not make the palette.
    pub head: f32,
    /// What the map costs; 0 likewise.
    pub map_bits: f32,
}

impl Palette {
    /// Document 01's listed example, for trying things: 4 by 2 with colours 16 and 235, the
    /// first line constant.
    ///
    /// ```
    /// use palette_station::{list, Palette};
    ///
    /// let listing = list(&Palette::example(), &[])?;
    /// assert_eq!((listing.words.len(), listing.raw_width), (12, 20));
    /// # Ok::<(), palette_station::Refusal>(())
    /// ```
    pub fn example() -> Palette {
        Palette {
            width: 4,
            height: 2,
            bd: 8,
            colors: Colors::from_fields(2, &[16, 235]),
            transposed: false,
            map: vec![0, 0, 0, 0, 0, 0, 1, 1],
            flags: vec![1, 0],
            head: 0.0,
            map_bits: 0.0,
        }
    }

    /// The same palette, lent.
    ///
    /// ```
    /// let palette = palette_station::Palette::example();
    /// assert_eq!(palette.view().to_palette(), palette);
    /// ```
    pub fn view(&self) -> PaletteView<'_> {
        PaletteView {
            width: self.width,
            height: self.height,
            bd: self.bd,
            colors: self.colors,
            transposed: self.transposed,
            map: &self.map,
            flags: &self.flags,
            head: self.head,
            map_bits: self.map_bits,
        }
    }

    /// The estimate for weighing this block against other ways to code it: (head + map bits) x 3. It
    /// is not the length of the list, and 0 for a palette that the search did not make.
    ///
    /// ```
    /// use palette_station::{search, Block, Costs};
    ///
    /// let samples = [[10.0; 8], [20.0; 8]].concat();
    /// let block = Block { samples: &samples, width: 16, height: 1, bd: 8 };
    /// let palette = search(&block, 0.0, &Costs::from_table([0.0; 301]))?;
    /// // Where symbols cost nothing: 15 bits of literals and one of orientation; the first index.
    /// assert_eq!((palette.head, palette.map_bits), (16.0, 1.0));
    /// assert_eq!(palette.estimate(), 51.0);
    /// # Ok::<(), palette_station::Refusal>(())
    /// ```
    pub fn estimate(&self) -> f32 {
        self.view().estimate()
    }

    /// The number of lines: rows, or columns when transposed.
    ///
    /// ```
    /// let palette = palette_station::Palette::example();
    /// assert_eq!((palette.width, palette.height), (4, 2));
    /// assert_eq!(palette.lines(), 2);
    /// ```
    pub fn lines(&self) -> usize {
        self.view().lines()
    }

    /// The index of a cell, if it is in the block.
    ///
    /// ```
    /// let palette = palette_station::Palette::example();
    /// assert_eq!(palette.index_at(1, 2), Some(1));
    /// assert_eq!(palette.index_at(1, 4), None);
    /// ```
    pub fn index_at(&self, y: usize, x: usize) -> Option<u8> {
        self.view().index_at(y, x)
    }

    /// The colour of a cell, if it is in the block.
    ///
    /// ```
    /// let palette = palette_station::Palette::example();
    /// assert_eq!(palette.color_at(1, 2), Some(235));
    /// ```
    pub fn color_at(&self, y: usize, x: usize) -> Option<u16> {
        self.view().color_at(y, x)
    }
}

impl<'a> PaletteView<'a> {
    /// From the archive's answer: n, eight colours and orientation, and the buffers whose fronts
    /// it wrote; and head and map bits.
    pub(crate) fn from_fields(
        (width, height): (usize, usize),
        bd: u32,
        fields: [u32; 10],
        [head, map_bits]: [f32; 2],
        map: &'a [u8],
        flags: &'a [u8],
    ) -> PaletteView<'a> {
        let [n, colors @ .., transposed] = fields;
        let transposed = transposed != 0;
        let lines = if transposed { width } else { height };
        PaletteView {
            width,
            height,
            bd,
            colors: Colors::from_fields(n, &colors),
            transposed,
            map: &map[..width * height],
            flags: &flags[..lines],
            head,
            map_bits,
        }
    }
}

impl PaletteView<'_> {
    /// The same palette with a map and flags of its own.
    ///
    /// ```
    /// let palette = palette_station::Palette::example();
    /// let kept = palette.view().to_palette();
    /// assert_eq!(kept.map, palette.map);
    /// ```
    pub fn to_palette(&self) -> Palette {
        Palette {
            width: self.width,
            height: self.height,
            bd: self.bd,
            colors: self.colors,
            transposed: self.transposed,
            map: self.map.to_vec(),
            flags: self.flags.to_vec(),
            head: self.head,
            map_bits: self.map_bits,
        }
    }

    /// As [`Palette::estimate`].
    ///
    /// ```
    /// let mut palette = palette_station::Palette::example();
    /// assert_eq!(palette.view().estimate(), 0.0);
    /// (palette.head, palette.map_bits) = (21.5, 4.0);
    /// assert_eq!(palette.view().estimate(), 76.5);
    /// ```
    pub fn estimate(&self) -> f32 {
        archive::estimate(self.head, self.map_bits)
    }

    /// The number of lines: rows, or columns when transposed.
    ///
    /// ```
    /// let palette = palette_station::Palette::example();
    /// let mut view = palette.view();
    /// assert_eq!(view.lines(), 2);
    /// view.transposed = true;
    /// assert_eq!(view.lines(), 4);
    /// ```
    pub fn lines(&self) -> usize {
        if self.transposed {
            self.width
        } else {
            self.height
        }
    }

    /// The index of a cell, if it is in the block.
    ///
    /// ```
    /// let palette = palette_station::Palette::example();
    /// assert_eq!(palette.view().index_at(0, 0), Some(0));
    /// assert_eq!(palette.view().index_at(2, 0), None);
    /// ```
    pub fn index_at(&self, y: usize, x: usize) -> Option<u8> {
        if x >= self.width || y >= self.height {
            return None;
        }
        let place = y.checked_mul(self.width)?.checked_add(x)?;
        self.map.get(place).copied()
    }

    /// The colour of a cell, if it is in the block.
    ///
    /// ```
    /// let palette = palette_station::Palette::example();
    /// assert_eq!(palette.view().color_at(0, 0), Some(16));
    /// ```
    pub fn color_at(&self, y: usize, x: usize) -> Option<u16> {
        let index = self.index_at(y, x)?;
        self.colors.get(usize::from(index)).copied()
    }

    pub(crate) fn lent(&self) -> Lent<'_> {
        Lent {
            width: self.width,
            height: self.height,
            bd: self.bd,
            colors: &self.colors.eight,
            n: self.colors.n,
            transposed: self.transposed,
            map: self.map,
            flags: self.flags,
        }
    }
}
