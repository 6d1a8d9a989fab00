//! A palette's prediction.

use crate::archive;
use crate::{Palette, PaletteView, Refusal};

/// The colour of each cell, row by row: what the decoder will show before any residue.
///
/// Refused by 1, 2, 11, 12, 14 and 15, tested in this order.
///
/// ```
/// let palette = palette_station::Palette::example();
/// let values = palette_station::pred(&palette)?;
/// assert_eq!(values, [16.0, 16.0, 16.0, 16.0, 16.0, 16.0, 235.0, 235.0]);
/// # Ok::<(), palette_station::Refusal>(())
/// ```
pub fn pred(palette: &Palette) -> Result<Vec<f32>, Refusal> {
    // A map of another length than width × height is refused before the room is looked at.
    let mut values = vec![0.0; palette.map.len()];
    pred_into(&palette.view(), &mut values)?;
    Ok(values)
}

/// The same with a lent buffer, refused by 7 if it has no room for width × height values.
///
/// What comes back is the front of it. What lies behind, and after a refusal everything, is as
/// it was.
///
/// ```
/// let palette = palette_station::Palette::example();
/// use palette_station::{pred_into, Refusal, MAX_CELLS};
///
/// let mut values = [0.0; MAX_CELLS];
/// assert_eq!(pred_into(&palette.view(), &mut values)?.len(), 8);
/// assert_eq!(pred_into(&palette.view(), &mut values[..7]), Err(Refusal::ROOM));
/// # Ok::<(), Refusal>(())
/// ```
pub fn pred_into<'v>(
    palette: &PaletteView<'_>,
    values: &'v mut [f32],
) -> Result<&'v [f32], Refusal> {
    Refusal::check(archive::pred(palette.lent(), values))?;
    Ok(&values[..palette.width * palette.height])
}
