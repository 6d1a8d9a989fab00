//! Rounding to a few greys, before the search.

use super::{top_level, Sheet};

const FEWEST: u32 = 2;
/// A block of more levels has no palette.
const MOST: u32 = 32;

/// A number of evenly spaced greys, 2 to 32, from black to white.
///
/// A scan with blur and noise has more than 32 levels in nearly every inked block, and so no
/// palettes. Rounded to 16 greys it has them. The rounding is no part of what is proved: the
/// search gets the rounded samples.
///
/// The rule is in whole numbers, so that every station rounds alike. Grey i of N at depth bd is
/// i × (2^bd - 1) / (N - 1), rounded to the nearest whole number and halves up; each sample becomes
/// the nearest grey, and the lighter of two that are as near.
///
/// ```
/// use palette_station::sheet::Levels;
///
/// let three = Levels::new(3).expect("2 to 32");
/// assert_eq!(three.greys(8).collect::<Vec<u16>>(), [0, 128, 255]);
/// // 64 lies between 0 and 128.
/// assert_eq!([0, 63, 64, 191, 192, 255].map(|v| three.nearest(8, v)), [0, 0, 128, 128, 255, 255]);
/// assert_eq!(Levels::new(33), None);
/// ```
#[derive(Clone, Copy, Debug, PartialEq, Eq)]
pub struct Levels(u32);

impl Levels {
    /// So many levels; none unless 2 to 32.
    ///
    /// ```
    /// use palette_station::sheet::Levels;
    ///
    /// assert!(Levels::new(2).is_some() && Levels::new(32).is_some());
    /// assert_eq!(Levels::new(1), None);
    /// ```
    pub fn new(count: u32) -> Option<Levels> {
        (FEWEST..=MOST).contains(&count).then_some(Levels(count))
    }

    /// How many they are.
    ///
    /// ```
    /// use palette_station::sheet::Levels;
    ///
    /// assert_eq!(Levels::new(16).map(Levels::count), Some(16));
    /// ```
    pub fn count(self) -> u32 {
        self.0
    }

    /// The greys of a depth, 8 to 12, from 0 to 2^bd - 1.
    ///
    /// ```
    /// use palette_station::sheet::Levels;
    ///
    /// let greys: Option<Vec<u16>> = Levels::new(4).map(|four| four.greys(10).collect());
    /// assert_eq!(greys, Some(vec![0, 341, 682, 1023]));
    /// ```
    pub fn greys(self, bd: u32) -> impl DoubleEndedIterator<Item = u16> {
        let (top, steps) = (u32::from(top_level(bd.clamp(8, 12))), self.0 - 1);
        (0..=steps).map(move |i| ((2 * i * top + steps) / (2 * steps)) as u16)
    }

    /// The grey that a sample of a depth becomes.
    ///
    /// ```
    /// use palette_station::sheet::Levels;
    ///
    /// assert_eq!(Levels::new(2).map(|two| two.nearest(12, 2048)), Some(4095));
    /// ```
    pub fn nearest(self, bd: u32, sample: u16) -> u16 {
        // From the lightest, as the first of those that are as near is taken.
        let nearest = self
            .greys(bd)
            .rev()
            .min_by_key(|grey| grey.abs_diff(sample));
        nearest.unwrap_or(sample)
    }

    /// A sheet with every sample rounded.
    pub(super) fn round(self, sheet: &Sheet) -> Sheet {
        let all = 0..=top_level(sheet.bd);
        let table: Vec<u16> = all.map(|sample| self.nearest(sheet.bd, sample)).collect();
        let samples = sheet.samples.iter();
        Sheet {
            samples: samples.map(|&sample| table[usize::from(sample)]).collect(),
            ..*sheet
        }
    }
}
