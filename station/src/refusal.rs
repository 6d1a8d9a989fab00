//! Why a call was refused.

use std::error::Error;
use std::fmt::{self, Display, Formatter};

/// The documents' number for what was asked, with its meaning: document 01's to 18, document 02's
/// from 19. A refused call has written nothing.
///
/// The constants can stand in patterns:
///
/// ```
/// use palette_station::{context, Refusal};
///
/// match context(&[0, 1], 2, 0, 0, 2) {
///     Err(Refusal::CONTEXT) => println!("the first cell has no context"),
///     other => panic!("{other:?}"),
/// }
/// assert_eq!(Refusal::ONE_LEVEL.to_string(), "refused by 9: one level only");
/// ```
#[derive(Clone, Copy, Debug, PartialEq, Eq, Hash)]
pub struct Refusal {
    number: u32,
}

macro_rules! refusals {
    ($($name:ident = $number:literal: $meaning:literal)+) => {
        /// The numbers in their order.
        impl Refusal {
            $(
                #[doc = concat!("Number ", $number, ": ", $meaning, ".")]
                ///
                /// ```
                #[doc = concat!("assert_eq!(palette_station::Refusal::", stringify!($name), ".number(), ", $number, ");")]
                /// ```
                pub const $name: Refusal = Refusal { number: $number };
            )+

            /// What the number stands for, in the documents' words.
            ///
            /// ```
            /// use palette_station::Refusal;
            ///
            /// assert_eq!(Refusal::SIDE.meaning(), "a side outside 1..64");
            /// ```
            pub const fn meaning(self) -> &'static str {
                match self.number {
                    $($number => $meaning,)+
                    _ => "a number that this package does not know",
                }
            }
        }
    };
}

refusals! {
    SIDE = 1: "a side outside 1..64"
    DEPTH = 2: "bd outside 8..12"
    SAMPLE_COUNT = 3: "sample count not width × height"
    LAMBDA = 4: "lambda not within 0..2^20, or NaN"
    COSTS = 5: "cost table not 301 long, or an entry not within 0..32"
    SAMPLE = 6: "a sample not within 0..2^bd - 1, or NaN"
    ROOM = 7: "room below width × height for map or values, or flag room below the longer side"
    SMALL = 8: "both sides below 16"
    ONE_LEVEL = 9: "one level only"
    MANY_LEVELS = 10: "more than 32 levels"
    COLORS = 11: "colours not 2..8, not strictly ascending, or above 2^bd - 1"
    ORIENTATION = 12: "transposed with a side of 64"
    CACHE = 13: "cache longer than 64"
    LENGTHS = 14: "map not width × height, or flags not one per line"
    MAP = 15: "an index not below n, or a flag that its line does not allow"
    WORD_ROOM = 16: "word room too small for the list"
    TEXT = 17: "listing program: text not in its form"
    CONTEXT = 18: "no context there: cell (0,0), x not below the stride, n not 2..8, or a used neighbour past the map's end or not below n"
    BLOCK_COUNT = 19: "no block, more than 64 or half a pair of sides in a strip, or more than 9,999 palettes in a block report"
    LIST_END = 20: "the list ends where a word is due"
    WORD = 21: "a word whose kind or first field is not the one due, or whose second is beyond its range"
    WORDS_LEFT = 22: "words left over behind the list"
    NOT_LISTED = 23: "a list that reads to its end but that the listing would not write"
    ADAPTED_LENGTH = 24: "an adapted table of a length other than 0 or 260"
    ADAPTED_ROWS = 25: "an adapted table whose used rows do not fall strictly from at most 32,767 to at least 1, or whose unused places are not 0"
}

impl Refusal {
    /// The number, 1 to 25.
    ///
    /// ```
    /// use palette_station::Refusal;
    ///
    /// assert_eq!(Refusal::CACHE.number(), 13);
    /// ```
    pub const fn number(self) -> u32 {
        self.number
    }

    /// The refusal of a number, if it is one of these.
    ///
    /// ```
    /// use palette_station::Refusal;
    ///
    /// assert_eq!(Refusal::from_number(9), Some(Refusal::ONE_LEVEL));
    /// assert_eq!(Refusal::from_number(0), None);
    /// assert_eq!(Refusal::from_number(26), None);
    /// ```
    pub const fn from_number(number: u32) -> Option<Refusal> {
        match number {
            1..=25 => Some(Refusal { number }),
            _ => None,
        }
    }

    /// Whether the block was in order and merely has no palette (8, 9 and 10). It is then coded
    /// by other means; every other number says that the call was wrong, or the list (20 to 23).
    ///
    /// ```
    /// use palette_station::Refusal;
    ///
    /// assert!(Refusal::MANY_LEVELS.means_no_palette());
    /// assert!(!Refusal::SAMPLE.means_no_palette());
    /// ```
    pub const fn means_no_palette(self) -> bool {
        matches!(self.number, 8..=10)
    }

    /// The archive's answer: 0 is none. A number past these is kept as it came, so that a
    /// newer archive shows in a message and not in a crash.
    pub(crate) const fn check(number: u32) -> Result<(), Refusal> {
        match number {
            0 => Ok(()),
            _ => Err(Refusal { number }),
        }
    }
}

impl Display for Refusal {
    fn fmt(&self, f: &mut Formatter<'_>) -> fmt::Result {
        write!(f, "refused by {}: {}", self.number, self.meaning())
    }
}

impl Error for Refusal {}
