//! The list of calls of a palette.

use crate::archive;
use crate::limits::MAX_WORDS;
use crate::{Calls, Palette, PaletteView, Refusal};

/// The call words of a palette, from size to map, and their raw width.
///
/// ```
/// let palette = palette_station::Palette::example();
/// let listing = palette_station::list(&palette, &[])?;
/// // The size symbol of two colours: kind 3, then 0 and n - 2.
/// assert_eq!(listing.words[0], 0x03_00_0000);
/// assert_eq!(listing.raw_width, 20);
/// # Ok::<(), palette_station::Refusal>(())
/// ```
#[derive(Clone, Debug, PartialEq, Eq)]
pub struct Listing {
    /// One word for each call.
    pub words: Vec<u32>,
    /// The number of bits that the coder sends as they are: the widths of the bypass calls, and for
    /// the uniform call 1, 2 or 3 bits where there are 2, 4 or 8 colours. Of 3, 5, 6 or 7 colours
    /// the first few indices take one bit less than the others.
    ///
    /// ```
    /// # use palette_station::{list, Colors, Palette};
    /// # let colors = Colors::new(&[10, 11, 12])?;
    /// let cell = |index| Palette {
    ///     width: 1,
    ///     height: 1,
    ///     colors, // 10, 11 and 12 at 8 bits
    ///     map: vec![index],
    ///     // ..
    /// #   bd: 8, transposed: false, flags: vec![1], head: 0.0, map_bits: 0.0,
    /// };
    /// // 8 + 2 + 5 + 5 bits for the colours, 1 for the orientation, and those of the index.
    /// assert_eq!(list(&cell(0), &[])?.raw_width, 21 + 1);
    /// assert_eq!(list(&cell(2), &[])?.raw_width, 21 + 2);
    /// # Ok::<(), palette_station::Refusal>(())
    /// ```
    pub raw_width: u32,
}

/// A [`Listing`] in a lent buffer.
///
/// ```
/// let palette = palette_station::Palette::example();
/// let mut room = [0; palette_station::MAX_WORDS];
/// let listing = palette_station::list_into(&palette.view(), &[], &mut room)?;
/// assert_eq!(listing.words.len(), 12);
/// # Ok::<(), palette_station::Refusal>(())
/// ```
#[derive(Clone, Copy, Debug, PartialEq, Eq)]
pub struct ListingView<'w> {
    /// One word for each call.
    pub words: &'w [u32],
    /// As in [`Listing::raw_width`].
    pub raw_width: u32,
}

impl Listing {
    /// The same listing, lent.
    ///
    /// ```
    /// let palette = palette_station::Palette::example();
    /// let listing = palette_station::list(&palette, &[])?;
    /// assert_eq!(listing.view().words, listing.words);
    /// # Ok::<(), palette_station::Refusal>(())
    /// ```
    pub fn view(&self) -> ListingView<'_> {
        ListingView {
            words: &self.words,
            raw_width: self.raw_width,
        }
    }

    /// The calls, decoded.
    ///
    /// ```
    /// let palette = palette_station::Palette::example();
    /// use palette_station::Call;
    ///
    /// let listing = palette_station::list(&palette, &[])?;
    /// let first = listing.calls().next();
    /// assert_eq!(first, Some(Ok(Call::Size { value: 0 })));
    /// # Ok::<(), palette_station::Refusal>(())
    /// ```
    pub fn calls(&self) -> Calls<'_> {
        Calls::new(&self.words)
    }
}

impl<'w> ListingView<'w> {
    /// The calls, decoded.
    ///
    /// ```
    /// let palette = palette_station::Palette::example();
    /// let mut room = [0; palette_station::MAX_WORDS];
    /// let listing = palette_station::list_into(&palette.view(), &[], &mut room)?;
    /// assert_eq!(listing.calls().count(), 12);
    /// # Ok::<(), palette_station::Refusal>(())
    /// ```
    pub fn calls(&self) -> Calls<'w> {
        Calls::new(self.words)
    }
}

/// Lists a palette's calls. The cache holds up to 64 colours of neighbours, of any value and in
/// the order in which the decoder has them; building it is the coder's part.
///
/// Refused by 1, 2 and 11 to 15, tested in this order. A palette that the search found, with a
/// cache of at most 64 entries, is never refused; [`read`](crate::read) gives it back.
///
/// ```
/// let palette = palette_station::Palette::example();
/// use palette_station::{list, Refusal};
///
/// // Both colours from the cache: two bits in place of three literals.
/// assert_eq!(list(&palette, &[16, 235])?.words.len(), 11);
/// assert_eq!(list(&palette, &[16; 65]), Err(Refusal::CACHE));
/// # Ok::<(), Refusal>(())
/// ```
pub fn list(palette: &Palette, cache: &[u16]) -> Result<Listing, Refusal> {
    let mut words = [0; MAX_WORDS];
    let listing = list_into(&palette.view(), cache, &mut words)?;
    Ok(Listing {
        words: listing.words.to_vec(),
        raw_width: listing.raw_width,
    })
}

/// The same with a lent buffer; refused by 16 if the list does not fit. [`MAX_WORDS`] is always
/// enough, [`word_room`](crate::word_room) tells how much is for given sides.
///
/// The listing borrows the front. What lies behind it, and after a refusal everything, is as it
/// was.
///
/// ```
/// let palette = palette_station::Palette::example();
/// use palette_station::{list_into, Refusal};
///
/// let mut room = [7; 12];
/// let refused = list_into(&palette.view(), &[], &mut room[..11]);
/// assert_eq!(refused, Err(Refusal::WORD_ROOM));
/// assert_eq!(room, [7; 12]);
/// assert!(list_into(&palette.view(), &[], &mut room).is_ok());
/// ```
pub fn list_into<'w>(
    palette: &PaletteView<'_>,
    cache: &[u16],
    words: &'w mut [u32],
) -> Result<ListingView<'w>, Refusal> {
    let mut listed = [0; 2];
    Refusal::check(archive::list(palette.lent(), cache, words, &mut listed))?;
    let [count, raw_width] = listed;
    Ok(ListingView {
        words: &words[..count as usize],
        raw_width,
    })
}
