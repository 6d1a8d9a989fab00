//! What each symbol costs in bits, as the search weighs it.

use crate::limits::COSTS;
use crate::{archive, Refusal};

const MODE: usize = 0;
const SIZE: usize = 2;
const ROW: usize = 9;
const COLOR: usize = 21;

/// The table of 301 costs, in document 01's order:
///
/// | places | cost of |
/// |---|---|
/// | 0, 1 | mode: no palette, palette |
/// | 2 to 8 | size: n = 2 to 8 |
/// | 9 to 20 | row: for each line context 0 to 3, flags 0 to 2 |
/// | 21 to 300 | colour: for each n from 2 to 8, for each context 0 to 4, ranks 0 to 7 |
///
/// Places of ranks that n colours do not have are never used, but are tested like the others:
/// the search refuses by 5 an entry that is not within 0..32.
///
/// Two stations get equal lists only if they lend equal costs.
///
/// ```
/// use palette_station::Costs;
///
/// let costs = Costs::default();
/// assert_eq!(costs.as_table()[2 + 1], costs.size(3).unwrap());
/// assert_eq!(costs.as_table()[9 + 3 * 3 + 1], costs.row(3, 1).unwrap());
/// assert_eq!(costs.as_table()[21 + (6 * 5 + 4) * 8], costs.color(8, 4, 0).unwrap());
/// ```
#[derive(Clone, Debug, PartialEq)]
pub struct Costs([f32; COSTS]);

impl Costs {
    /// The costs from a tile's adapted rows. They are sixteenths of a bit, found in whole numbers by
    /// document 02's rule and exact in f32, and so the same on every machine.
    ///
    /// The rows stand one behind the other, [`ADAPTED`](crate::ADAPTED) numbers in all: mode 1,
    /// size 6, row 4 × 2 (for each line context), colour 7 × 5 × 7 (for each n from 2 to 8, for
    /// each context; n - 1 numbers, then zeros). A row has a number fewer than it has symbols, and
    /// falls: a symbol's probability out of 32,768 is the number before it less its own, where
    /// 32,768 stands before the row and 0 after it. Probability p costs c / 16, with c the largest
    /// whole number where 2^c · p^16 ≤ 2^240; so every cost is within 0..15. Places of ranks that
    /// n colours do not have cost 0.
    ///
    /// No numbers at all lend no rows: that gives the default costs. Any other length is refused
    /// by 24. Rows that do not fall strictly from at most 32,767 to at least 1, or are not followed
    /// by zeros, are refused by 25.
    ///
    /// ```
    /// use palette_station::{Costs, Refusal, ADAPTED};
    ///
    /// // Each symbol but a row's last has an eighth of the whole.
    /// let row = |symbols: u16| (1..symbols).map(|symbol| 32_768 - 4_096 * symbol);
    /// let mut rows = Vec::with_capacity(ADAPTED);
    /// rows.extend(row(2)); // mode
    /// rows.extend(row(7)); // size
    /// for _line_context in 0..4 {
    ///     rows.extend(row(3));
    /// }
    /// for n in 2..=8 {
    ///     for _context in 0..5 {
    ///         rows.extend(row(n).chain(std::iter::repeat(0)).take(7));
    ///     }
    /// }
    /// let costs = Costs::adapted(&rows)?;
    /// assert_eq!(costs.color(8, 4, 7), Some(3.0)); // an eighth
    /// assert_eq!(costs.row(0, 2), Some(0.375)); // six eighths, 0.415 bits: six sixteenths
    ///
    /// rows[1] = rows[2];
    /// assert_eq!(Costs::adapted(&rows), Err(Refusal::ADAPTED_ROWS));
    /// rows.pop();
    /// assert_eq!(Costs::adapted(&rows), Err(Refusal::ADAPTED_LENGTH));
    /// # Ok::<(), Refusal>(())
    /// ```
    pub fn adapted(rows: &[u16]) -> Result<Costs, Refusal> {
        let mut table = [0.0; COSTS];
        Refusal::check(archive::costs(rows, &mut table))?;
        Ok(Costs(table))
    }

    /// Costs of one's own, in the order above. The search tests the entries.
    ///
    /// ```
    /// use palette_station::{search, Block, Costs, Refusal};
    ///
    /// let samples = [10.0, 20.0].repeat(8);
    /// let block = Block { samples: &samples, width: 16, height: 1, bd: 8 };
    /// let free = Costs::from_table([0.0; 301]);
    /// assert!(search(&block, 0.0, &free).is_ok());
    /// let dear = Costs::from_table([33.0; 301]);
    /// assert_eq!(search(&block, 0.0, &dear), Err(Refusal::COSTS));
    /// ```
    pub const fn from_table(table: [f32; COSTS]) -> Costs {
        Costs(table)
    }

    /// The same from a slice; refused by 5 unless there are 301 entries.
    ///
    /// ```
    /// use palette_station::{Costs, Refusal};
    ///
    /// assert!(Costs::from_slice(&vec![1.0; 301]).is_ok());
    /// assert_eq!(Costs::from_slice(&[1.0; 300]), Err(Refusal::COSTS));
    /// ```
    pub fn from_slice(table: &[f32]) -> Result<Costs, Refusal> {
        table.try_into().map(Costs).map_err(|_| Refusal::COSTS)
    }

    /// The 301 entries.
    ///
    /// ```
    /// use palette_station::Costs;
    ///
    /// assert!(Costs::default().as_table().iter().all(|cost| (0.0..=32.0).contains(cost)));
    /// ```
    pub const fn as_table(&self) -> &[f32; COSTS] {
        &self.0
    }

    /// The cost of having a palette, or of having none.
    ///
    /// ```
    /// use palette_station::Costs;
    ///
    /// assert!(Costs::default().mode(true) > Costs::default().mode(false));
    /// ```
    pub fn mode(&self, palette: bool) -> f32 {
        self.0[MODE + usize::from(palette)]
    }

    /// The cost of the size symbol for n colours; none unless n is 2 to 8.
    ///
    /// ```
    /// use palette_station::Costs;
    ///
    /// assert!(Costs::default().size(2).is_some());
    /// assert_eq!(Costs::default().size(9), None);
    /// ```
    pub fn size(&self, n: usize) -> Option<f32> {
        (2..=8).contains(&n).then(|| self.0[SIZE + n - 2])
    }

    /// The cost of a line flag, 0 to 2, under a line context, 0 to 3.
    ///
    /// ```
    /// use palette_station::Costs;
    ///
    /// assert!(Costs::default().row(2, 2).is_some());
    /// assert_eq!(Costs::default().row(4, 0), None);
    /// assert_eq!(Costs::default().row(0, 3), None);
    /// ```
    pub fn row(&self, context: usize, flag: usize) -> Option<f32> {
        (context < 4 && flag < 3).then(|| self.0[ROW + context * 3 + flag])
    }

    /// The cost of a rank below n under a context, 0 to 4, with n colours.
    ///
    /// ```
    /// use palette_station::Costs;
    ///
    /// assert!(Costs::default().color(3, 4, 2).is_some());
    /// assert_eq!(Costs::default().color(3, 4, 3), None);
    /// assert_eq!(Costs::default().color(3, 5, 0), None);
    /// ```
    pub fn color(&self, n: usize, context: usize, rank: usize) -> Option<f32> {
        let there = (2..=8).contains(&n) && context < 5 && rank < n;
        there.then(|| self.0[COLOR + ((n - 2) * 5 + context) * 8 + rank])
    }
}

/// The costs from the default rows, the source's with mode 2723; [`Costs::adapted`] has the rule.
///
/// They are made at each call, in a few microseconds: for many blocks make them once.
///
/// ```
/// use palette_station::Costs;
///
/// // Two colours at context 1: both ranks have half of the frequencies.
/// assert_eq!(Costs::default().color(2, 1, 0), Some(1.0));
/// assert_eq!(Costs::default(), Costs::adapted(&[])?);
/// # Ok::<(), palette_station::Refusal>(())
/// ```
impl Default for Costs {
    fn default() -> Costs {
        Costs::adapted(&[]).expect("no rows are never refused")
    }
}
