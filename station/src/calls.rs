//! Call words, decoded and handed to a coder.

use std::error::Error;
use std::fmt::{self, Display, Formatter};

/// One call to a byte coder.
///
/// ```
/// use palette_station::Call;
///
/// let call = Call::from_word(0x05_04_0001);
/// assert_eq!(call, Some(Call::Color { n: 2, context: 4, rank: 1 }));
/// ```
#[derive(Clone, Copy, Debug, PartialEq, Eq, Hash)]
pub enum Call {
    /// A value in so many plain bits, the highest first. A width of 0 writes nothing.
    Bypass {
        /// The number of bits, 0 to 12.
        width: u32,
        /// Below 2^width.
        value: u32,
    },
    /// A value of n equally likely ones, in the source's shortened binary code.
    Uniform {
        /// The number of values, 2 to 8.
        n: u32,
        /// Below n.
        value: u32,
    },
    /// The size symbol.
    Size {
        /// The number of colours minus 2.
        value: u32,
    },
    /// A line flag.
    Row {
        /// The flag before, or 3 on the first line.
        context: u32,
        /// 0 to 2.
        flag: u32,
    },
    /// The rank of a cell's index.
    Color {
        /// The number of colours, 2 to 8.
        n: u32,
        /// 0 to 4.
        context: u32,
        /// Below n.
        rank: u32,
    },
}

const BYPASS: u32 = 1;
const UNIFORM: u32 = 2;
const SIZE: u32 = 3;
const ROW: u32 = 4;
const COLOR: u32 = 5;

impl Call {
    /// Decodes a word: kind × 2^24 + first × 2^16 + second. None if the kind is unknown or a
    /// number is outside the range that its field has above, so a coder may index its tables by
    /// what comes out.
    ///
    /// ```
    /// use palette_station::Call;
    ///
    /// assert_eq!(Call::from_word(0x01_08_0010), Some(Call::Bypass { width: 8, value: 16 }));
    /// // 256 does not fit 8 bits, and there is no kind 6.
    /// assert_eq!(Call::from_word(0x01_08_0100), None);
    /// assert_eq!(Call::from_word(0x06_00_0000), None);
    /// ```
    pub fn from_word(word: u32) -> Option<Call> {
        let (kind, first, second) = (word >> 24, word >> 16 & 0xff, word & 0xffff);
        match kind {
            BYPASS => (first <= 12 && second >> first == 0).then_some(Call::Bypass {
                width: first,
                value: second,
            }),
            UNIFORM => ((2..=8).contains(&first) && second < first).then_some(Call::Uniform {
                n: first,
                value: second,
            }),
            SIZE => (first == 0 && second <= 6).then_some(Call::Size { value: second }),
            ROW => (first <= 3 && second <= 2).then_some(Call::Row {
                context: first,
                flag: second,
            }),
            COLOR => {
                let (n, context) = (first / 5 + 2, first % 5);
                (n <= 8 && second < n).then_some(Call::Color {
                    n,
                    context,
                    rank: second,
                })
            }
            _ => None,
        }
    }

    /// The word of a call; none if a number is outside its range.
    ///
    /// ```
    /// use palette_station::Call;
    ///
    /// assert_eq!(Call::Row { context: 3, flag: 1 }.to_word(), Some(0x04_03_0001));
    /// assert_eq!(Call::Row { context: 3, flag: 3 }.to_word(), None);
    /// ```
    pub fn to_word(self) -> Option<u32> {
        let (kind, first, second) = match self {
            Call::Bypass { width, value } => (BYPASS, width, value),
            Call::Uniform { n, value } => (UNIFORM, n, value),
            Call::Size { value } => (SIZE, 0, value),
            Call::Row { context, flag } => (ROW, context, flag),
            Call::Color { n, context, rank } => {
                let row = n.checked_sub(2)?.checked_mul(5)?.checked_add(context)?;
                (COLOR, row, rank)
            }
        };
        let word = kind << 24 | u32::from(u8::try_from(first).ok()?) << 16;
        let word = word | u32::from(u16::try_from(second).ok()?);
        // Only a call that comes back from its word is in range.
        (Call::from_word(word) == Some(self)).then_some(word)
    }
}

/// A word that is no call, with its place in the list.
///
/// ```
/// use palette_station::Calls;
///
/// let error = Calls::new(&[7]).next().unwrap().unwrap_err();
/// assert_eq!((error.place, error.word), (0, 7));
/// assert_eq!(error.to_string(), "word 0 of the list, 0x00000007, is no call");
/// ```
#[derive(Clone, Copy, Debug, PartialEq, Eq, Hash)]
pub struct UnknownWord {
    /// Its place, counted from 0.
    pub place: usize,
    /// The word.
    pub word: u32,
}

impl Display for UnknownWord {
    fn fmt(&self, f: &mut Formatter<'_>) -> fmt::Result {
        let UnknownWord { place, word } = self;
        write!(f, "word {place} of the list, {word:#010x}, is no call")
    }
}

impl Error for UnknownWord {}

/// Goes through the calls of a list. A word that is no call gives an error, and the next word is
/// decoded all the same. A list that [`list`](crate::list) made has calls only.
///
/// ```
/// use palette_station::{Call, Calls};
///
/// let mut calls = Calls::new(&[0x03_00_0000, 0x01_08_0010, 0xffff_ffff]);
/// assert_eq!(calls.next(), Some(Ok(Call::Size { value: 0 })));
/// assert_eq!(calls.next(), Some(Ok(Call::Bypass { width: 8, value: 16 })));
/// assert!(calls.next().unwrap().is_err());
/// assert_eq!(calls.next(), None);
/// ```
#[derive(Clone, Debug)]
pub struct Calls<'w> {
    words: &'w [u32],
    place: usize,
}

impl<'w> Calls<'w> {
    /// Starts at the first word.
    ///
    /// ```
    /// assert_eq!(palette_station::Calls::new(&[]).count(), 0);
    /// ```
    pub fn new(words: &'w [u32]) -> Calls<'w> {
        Calls { words, place: 0 }
    }
}

impl Iterator for Calls<'_> {
    type Item = Result<Call, UnknownWord>;

    fn next(&mut self) -> Option<Self::Item> {
        let (place, &word) = (self.place, self.words.get(self.place)?);
        self.place += 1;
        Some(Call::from_word(word).ok_or(UnknownWord { place, word }))
    }

    fn size_hint(&self) -> (usize, Option<usize>) {
        let left = self.words.len() - self.place;
        (left, Some(left))
    }
}

impl ExactSizeIterator for Calls<'_> {}

/// The byte coder's side: one method for each kind of call. The numbers are in the ranges that
/// [`Call`] names, so they can index a coder's tables.
///
/// ```
/// use palette_station::{replay, Coder};
///
/// /// Stands for a byte coder with methods of its own.
/// #[derive(Default)]
/// struct RangeCoder(Vec<String>);
///
/// impl RangeCoder {
///     fn literal(&mut self, value: u32, bits: u32) { self.0.push(format!("{value}/{bits}")) }
///     fn quniform(&mut self, value: u32, n: u32) { self.0.push(format!("{value} of {n}")) }
///     fn symbol(&mut self, table: &str, row: u32, symbol: u32) {
///         self.0.push(format!("{table}{row}:{symbol}"))
///     }
/// }
///
/// impl Coder for RangeCoder {
///     fn bypass(&mut self, width: u32, value: u32) { self.literal(value, width) }
///     fn uniform(&mut self, n: u32, value: u32) { self.quniform(value, n) }
///     fn size(&mut self, value: u32) { self.symbol("size", 0, value) }
///     fn row(&mut self, context: u32, flag: u32) { self.symbol("row", context, flag) }
///     fn color(&mut self, n: u32, context: u32, rank: u32) {
///         self.symbol("color", (n - 2) * 5 + context, rank)
///     }
/// }
///
/// let palette = palette_station::Palette::example();
/// let mut coder = RangeCoder::default();
/// replay(&palette_station::list(&palette, &[])?.words, &mut coder)?;
/// assert_eq!(coder.0[..2], ["size0:0", "16/8"]);
/// # Ok::<(), Box<dyn std::error::Error>>(())
/// ```
pub trait Coder {
    /// Codes `value` in `width` plain bits, the highest first.
    fn bypass(&mut self, width: u32, value: u32);
    /// Codes `value`, one of `n` equally likely ones.
    fn uniform(&mut self, n: u32, value: u32);
    /// Codes the size symbol, the number of colours minus 2.
    fn size(&mut self, value: u32);
    /// Codes a line flag under its context.
    fn row(&mut self, context: u32, flag: u32);
    /// Codes a rank with `n` colours under its context.
    fn color(&mut self, n: u32, context: u32, rank: u32);
}

/// Hands every call of a list to a coder, in order. All words are looked at first: if one is no
/// call, nothing is coded.
///
/// ```
/// use palette_station::{replay, Coder};
///
/// /// Adds up the plain bits.
/// struct Plain(u32);
///
/// impl Coder for Plain {
///     fn bypass(&mut self, width: u32, _: u32) { self.0 += width }
///     fn uniform(&mut self, _: u32, _: u32) {}
///     fn size(&mut self, _: u32) {}
///     fn row(&mut self, _: u32, _: u32) {}
///     fn color(&mut self, _: u32, _: u32, _: u32) {}
/// }
///
/// let mut plain = Plain(0);
/// replay(&[0x01_08_0010, 0x01_02_0003], &mut plain)?;
/// assert_eq!(plain.0, 10);
/// assert!(replay(&[0x01_08_0010, 0], &mut plain).is_err());
/// assert_eq!(plain.0, 10);
/// # Ok::<(), palette_station::UnknownWord>(())
/// ```
pub fn replay(words: &[u32], coder: &mut impl Coder) -> Result<(), UnknownWord> {
    Calls::new(words).try_for_each(|call| call.map(drop))?;
    Calls::new(words).try_for_each(|call| {
        hand_over(call?, coder);
        Ok(())
    })
}

fn hand_over(call: Call, coder: &mut impl Coder) {
    match call {
        Call::Bypass { width, value } => coder.bypass(width, value),
        Call::Uniform { n, value } => coder.uniform(n, value),
        Call::Size { value } => coder.size(value),
        Call::Row { context, flag } => coder.row(context, flag),
        Call::Color { n, context, rank } => coder.color(n, context, rank),
    }
}
