//! A sheet's form read back.

use super::form::{digits, Form, NAME};
use super::parts::Parts;
use super::{area, top_level, Area, Levels, Settings};
use crate::limits::{COSTS, MAX_SIDE, MAX_WORDS};
use crate::{Costs, Refusal};
use std::error::Error;
use std::fmt::{self, Display, Formatter};
use std::str::{FromStr, SplitAsciiWhitespace};

/// Not the form of any sheet.
///
/// ```
/// use palette_station::sheet::{Form, NoForm};
///
/// assert_eq!(Form::read(b"P5 1 1 255 ").err(), Some(NoForm));
/// ```
#[derive(Clone, Copy, Debug, PartialEq, Eq)]
pub struct NoForm;

impl Display for NoForm {
    fn fmt(&self, f: &mut Formatter<'_>) -> fmt::Result {
        f.write_str("not the form of a sheet")
    }
}

impl Error for NoForm {}

impl Form {
    /// Reads a whole form. What is read is written again as the same bytes, so that no two texts
    /// are read as one form. Whether a search gives this form is not asked.
    ///
    /// ```
    /// use palette_station::sheet::{Form, Settings, Sheet};
    ///
    /// let sheet = Sheet::new(2, 1, 8, vec![10, 200])?;
    /// let mut text = Vec::new();
    /// sheet.search(&Settings::of_depth(8), 1, |_, _| {})?.form.write(&mut text)?;
    /// let read = Form::read(&text)?;
    /// assert_eq!((read.width(), read.height(), read.bd()), (2, 1, 8));
    /// text.push(b'\n');
    /// assert!(Form::read(&text).is_err());
    /// # Ok::<(), Box<dyn std::error::Error>>(())
    /// ```
    pub fn read(text: &[u8]) -> Result<Form, NoForm> {
        let form = parse(text).ok_or(NoForm)?;
        let mut again = Vec::with_capacity(text.len());
        match form.write(&mut again) {
            Ok(()) if again == text => Ok(form),
            _ => Err(NoForm),
        }
    }
}

/// Takes any white space for what the form has; writing it again tells.
fn parse(text: &[u8]) -> Option<Form> {
    let rest = std::str::from_utf8(text).ok()?.strip_prefix(NAME)?;
    let mut words = Words(rest.split_ascii_whitespace());
    let width = words.named("width").filter(|&width| width > 0)?;
    let height = words.named("height").filter(|&height| height > 0)?;
    let bd = words.named("depth").filter(|bd| (8..=12).contains(bd))?;
    let settings = words.settings()?;
    let mut parts = Parts::default();
    for area in area::blocks(width, height, settings.side) {
        words.part(area, bd, &mut parts)?;
    }
    Some(Form {
        width,
        height,
        bd,
        settings,
        parts,
    })
}

struct Words<'a>(SplitAsciiWhitespace<'a>);

impl Words<'_> {
    fn number<T: FromStr>(&mut self) -> Option<T> {
        self.0.next()?.parse().ok()
    }

    fn named<T: FromStr>(&mut self, name: &str) -> Option<T> {
        (self.0.next()? == name).then(|| self.number())?
    }

    fn float(&mut self) -> Option<f32> {
        u32::from_str_radix(self.0.next()?, 16)
            .ok()
            .map(f32::from_bits)
    }

    fn settings(&mut self) -> Option<Settings> {
        let side = self
            .named("side")
            .filter(|side| (1..=MAX_SIDE).contains(side))?;
        let levels = match self.named("levels")? {
            0 => None,
            count => Some(Levels::new(count)?),
        };
        let lambda = (self.0.next()? == "lambda").then(|| self.float())??;
        let costs: Option<Vec<f32>> = match self.0.next()? {
            "costs" => (0..COSTS).map(|_| self.float()).collect(),
            _ => None,
        };
        Some(Settings {
            side,
            levels,
            lambda,
            costs: Costs::from_slice(&costs?).ok()?,
        })
    }

    fn part(&mut self, area: Area, bd: u32, parts: &mut Parts) -> Option<()> {
        match self.number()? {
            0 => self.refused(area, bd, parts),
            count @ 1..=MAX_WORDS => {
                let words: Option<Vec<u32>> = (0..count).map(|_| self.call()).collect();
                parts.push_list(&words?);
                Some(())
            }
            _ => None,
        }
    }

    fn refused(&mut self, area: Area, bd: u32, parts: &mut Parts) -> Option<()> {
        match Refusal::from_number(self.number()?)? {
            Refusal::ONE_LEVEL => {
                let level = self.number().filter(|&level| level <= top_level(bd))?;
                parts.push_level(level);
            }
            refusal if refusal.means_no_palette() => {
                let rows: Option<Vec<Vec<u16>>> = (0..area.height)
                    .map(|_| self.samples(area.width, bd))
                    .collect();
                parts.push_samples(refusal, rows?.into_iter());
            }
            _ => return None,
        }
        Some(())
    }

    fn call(&mut self) -> Option<u32> {
        let [kind, first]: [u8; 2] = [self.number()?, self.number()?];
        let second: u16 = self.number()?;
        Some(u32::from(kind) << 24 | u32::from(first) << 16 | u32::from(second))
    }

    fn samples(&mut self, width: usize, bd: u32) -> Option<Vec<u16>> {
        let row = self
            .0
            .next()
            .filter(|row| row.len() == width * digits(bd))?;
        let sample = |digits| u16::from_str_radix(std::str::from_utf8(digits).ok()?, 16).ok();
        let samples = row.as_bytes().chunks(digits(bd)).map(sample);
        samples
            .map(|sample| sample.filter(|&v| v <= top_level(bd)))
            .collect()
    }
}
