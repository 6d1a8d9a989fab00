//! Palette blocks for stations: the proved search, listing, reading and prediction as safe
//! functions.
//!
//! A block of a scanned sheet becomes 2 to 8 colours and an index map ([`search`]), and these
//! become a list of calls ([`list`]) for a byte coder ([`replay`]). A list that was kept is read
//! back ([`read`]) and shown ([`pred`]). Documents 01 and 02 are the specification; their numbers
//! come back as a [`Refusal`].
//!
//! ```
//! use palette_station::{list, pred, read, search, Block, Costs};
//!
//! // 16 by 1: eight samples of 10, then eight of 20.
//! let samples = [[10.0; 8], [20.0; 8]].concat();
//! let block = Block { samples: &samples, width: 16, height: 1, bd: 8 };
//! let palette = search(&block, 60.0, &Costs::default())?;
//! assert_eq!(palette.colors[..], [10, 20]);
//!
//! let listing = list(&palette, &[])?;
//! for call in listing.calls() {
//!     println!("{:?}", call.expect("a listing holds known words only"));
//! }
//!
//! let back = read(16, 1, 8, &listing.words, &[])?;
//! assert_eq!(pred(&back)?, pred(&palette)?);
//! # Ok::<(), palette_station::Refusal>(())
//! ```
//!
//! Equal input gives equal lists on every station; different palettes of one width, height, depth
//! and cache never share a list, and only what a listing would write is read. No input makes these
//! functions fail other than by a refusal, and a refusal leaves every lent buffer as it was. A
//! whole [`sheet`] is known by more than its lists; a [`report`] tells what the lists of many
//! blocks come to.
//!
//! The answers do not depend on the caller's floating environment: each call runs in the default
//! one and puts the caller's back. So a program that flushes subnormal numbers to 0 (C's
//! `-ffast-math`) or rounds upward finds the same palettes, and one that has unmasked float
//! exceptions gets none out of a search.
//!
//! [`search`], [`list`], [`read`] and [`pred`] allocate what they hand back. A station that goes
//! through many blocks lends its own buffers to [`search_into`], [`list_into`], [`read_into`] and
//! [`pred_into`]; then nothing is allocated. Small blocks are best searched many at once, up to 64
//! in a strip: [`search_strip`], or [`search_strip_into`] with lent buffers.

#![deny(missing_docs)]
#![deny(unsafe_code)]

#[allow(unsafe_code)]
mod archive;
mod calls;
mod context;
mod costs;
#[allow(unsafe_code)]
mod environment;
mod limits;
mod listing;
mod palette;
mod pred;
mod read;
mod refusal;
pub mod report;
mod search;
pub mod sheet;
mod strip;

pub use calls::{replay, Call, Calls, Coder, UnknownWord};
pub use context::{context, Context};
pub use costs::Costs;
pub use limits::{
    word_room, ADAPTED, COSTS, MAX_CACHE, MAX_CELLS, MAX_COLORS, MAX_LINES, MAX_SIDE, MAX_STRIP,
    MAX_WORDS,
};
pub use listing::{list, list_into, Listing, ListingView};
pub use palette::{Colors, Palette, PaletteView};
pub use pred::{pred, pred_into};
pub use read::{read, read_into};
pub use refusal::Refusal;
pub use search::{block_allowed, search, search_into, Block};
pub use strip::{search_strip, search_strip_into, Answers, Blocks};

// The README's examples are tested too.
#[cfg(doctest)]
#[doc = include_str!("../README.md")]
struct Readme;
