//! The documents' limits, for buffers that are made once.

/// The longest side of a block.
///
/// ```
/// assert_eq!(palette_station::MAX_SIDE, 64);
/// ```
pub const MAX_SIDE: usize = 64;

/// The most cells that a block has: room for any map and any prediction.
///
/// ```
/// use palette_station::{MAX_CELLS, MAX_SIDE};
///
/// assert_eq!(MAX_CELLS, MAX_SIDE * MAX_SIDE);
/// ```
pub const MAX_CELLS: usize = MAX_SIDE * MAX_SIDE;

/// The most lines that a block has: room for any flags.
///
/// ```
/// assert_eq!(palette_station::MAX_LINES, palette_station::MAX_SIDE);
/// ```
pub const MAX_LINES: usize = MAX_SIDE;

/// The most blocks of a strip.
///
/// ```
/// assert_eq!(palette_station::MAX_STRIP, 64);
/// ```
pub const MAX_STRIP: usize = 64;

/// The most colours of a palette.
///
/// ```
/// assert_eq!(palette_station::MAX_COLORS, 8);
/// ```
pub const MAX_COLORS: usize = 8;

/// The longest cache.
///
/// ```
/// assert_eq!(palette_station::MAX_CACHE, 64);
/// ```
pub const MAX_CACHE: usize = 64;

/// The length of the table of costs.
///
/// ```
/// // Mode, size, row and colour.
/// assert_eq!(palette_station::COSTS, 2 + 7 + 4 * 3 + 7 * 5 * 8);
/// ```
pub const COSTS: usize = 301;

/// The length of a table of adapted rows.
///
/// ```
/// // Mode, size, row and colour: each row has a number fewer than it has symbols.
/// assert_eq!(palette_station::ADAPTED, 1 + 6 + 4 * 2 + 7 * 5 * 7);
/// ```
pub const ADAPTED: usize = 260;

/// The most words that a list has: room for any listing.
///
/// ```
/// use palette_station::{word_room, MAX_WORDS};
///
/// assert_eq!(word_room(64, 64, 64), MAX_WORDS);
/// ```
pub const MAX_WORDS: usize = 1 + MAX_CACHE + LITERALS + MAX_LINES + MAX_CELLS;

/// Calls for eight colours without a cache: the first, the width of the steps, seven steps.
const LITERALS: usize = 1 + MAX_COLORS;

/// Room for the list of any palette of these sides with so many cache entries. It is never more
/// than [`MAX_WORDS`]; what document 01 refuses needs none, whatever is said here.
///
/// ```
/// use palette_station::word_room;
///
/// // Size, 2 cache bits, 9 literals, orientation, 16 flags, 16 cells.
/// assert_eq!(word_room(16, 1, 2), 1 + 2 + 9 + 1 + 16 + 16);
/// assert!(word_room(usize::MAX, 3, usize::MAX) <= palette_station::MAX_WORDS);
/// ```
pub fn word_room(width: usize, height: usize, cached: usize) -> usize {
    let (width, height) = (width.min(MAX_SIDE), height.min(MAX_SIDE));
    let longer = width.max(height);
    let orientation = usize::from(longer < MAX_SIDE);
    1 + cached.min(MAX_CACHE) + LITERALS + orientation + longer + width * height
}
