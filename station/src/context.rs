//! The context of a cell.

use std::array;

use crate::archive;
use crate::limits::MAX_COLORS;
use crate::Refusal;

/// The context of a cell, with the order of the indices there and their ranks.
///
/// ```
/// use palette_station::context;
///
/// // Left 1, diagonal 0, top 1: the pair first, then the diagonal, then the rest.
/// let found = context(&[0, 1, 1, 0], 2, 1, 1, 3)?;
/// assert_eq!(found.value(), 3);
/// assert_eq!(found.order(), [1, 0, 2]);
/// assert_eq!(found.rank_of(0), Some(1));
/// # Ok::<(), palette_station::Refusal>(())
/// ```
#[derive(Clone, Copy, Debug, PartialEq, Eq, Hash)]
pub struct Context {
    value: u8,
    n: usize,
    order: [u8; MAX_COLORS],
    ranks: [u8; MAX_COLORS],
}

impl Context {
    /// The context, 0 to 4.
    ///
    /// ```
    /// let found = palette_station::context(&[0, 0, 0], 2, 1, 1, 2)?;
    /// assert_eq!(found.value(), 4);
    /// # Ok::<(), palette_station::Refusal>(())
    /// ```
    pub fn value(&self) -> u8 {
        self.value
    }

    /// The n indices by rank.
    ///
    /// ```
    /// let found = palette_station::context(&[2], 4, 0, 1, 3)?;
    /// assert_eq!(found.order(), [2, 0, 1]);
    /// # Ok::<(), palette_station::Refusal>(())
    /// ```
    pub fn order(&self) -> &[u8] {
        &self.order[..self.n]
    }

    /// The rank of an index, if it is below n: what a lister sends for it.
    ///
    /// ```
    /// let found = palette_station::context(&[2], 4, 0, 1, 3)?;
    /// assert_eq!(found.rank_of(2), Some(0));
    /// assert_eq!(found.rank_of(1), Some(2));
    /// assert_eq!(found.rank_of(3), None);
    /// # Ok::<(), palette_station::Refusal>(())
    /// ```
    pub fn rank_of(&self, index: u8) -> Option<u8> {
        self.ranks[..self.n].get(usize::from(index)).copied()
    }

    /// The index at a rank, if it is below n: what a reader gets back. It undoes `rank_of`.
    ///
    /// ```
    /// let found = palette_station::context(&[2], 4, 0, 1, 3)?;
    /// assert_eq!(found.index_at(0), Some(2));
    /// assert_eq!(found.index_at(3), None);
    /// for index in 0..3 {
    ///     let rank = found.rank_of(index).unwrap();
    ///     assert_eq!(found.index_at(rank), Some(index));
    /// }
    /// # Ok::<(), palette_station::Refusal>(())
    /// ```
    pub fn index_at(&self, rank: u8) -> Option<u8> {
        self.order().get(usize::from(rank)).copied()
    }
}

/// The context at row `y` and column `x` of a map whose rows are `stride` apart, with n colours.
/// The rows are the picture's, also when the lines of the map are columns. Only the neighbours
/// left, above and between are read, so a decoder can ask while it fills its map.
///
/// Refused by 18 only.
///
/// ```
/// use palette_station::{context, Refusal};
///
/// assert_eq!(context(&[1], 64, 1, 0, 2)?.order(), [1, 0]);
/// assert_eq!(context(&[1], 64, 0, 0, 2), Err(Refusal::CONTEXT));
/// # Ok::<(), Refusal>(())
/// ```
pub fn context(
    map: &[u8],
    stride: usize,
    y: usize,
    x: usize,
    n: usize,
) -> Result<Context, Refusal> {
    let mut words = [0; 1 + 2 * MAX_COLORS];
    Refusal::check(archive::context(map, stride, y, x, n, &mut words))?;
    let [value, places @ ..] = words.map(|word| word as u8);
    Ok(Context {
        value,
        n,
        order: array::from_fn(|rank| places[rank]),
        ranks: array::from_fn(|index| places[MAX_COLORS + index]),
    })
}
