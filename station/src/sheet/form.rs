//! The one form that a sheet is known by.

use super::parts::Parts;
use super::{area, Area, Part, Settings};
use crate::Costs;
use std::io::{self, Write};

pub(super) const NAME: &str = "palette-sheet 1";
const COSTS_IN_LINE: usize = 7;
const HEX: &[u8; 16] = b"0123456789abcdef";

/// What a sheet is known by; [the module](super) says what it holds and how it is written.
///
/// ```
/// use palette_station::sheet::{Form, Settings, Sheet};
///
/// let sheet = Sheet::new(2, 1, 8, vec![10, 200])?;
/// let form = sheet.search(&Settings::of_depth(8), 1, |_, _| {})?.form;
/// let mut text = Vec::new();
/// form.write(&mut text)?;
/// assert!(text.starts_with(b"palette-sheet 1\nwidth 2\nheight 1\ndepth 8\nside 64\n"));
/// assert!(text.ends_with(b"\n       0       8\n0ac8\n"));
/// # Ok::<(), Box<dyn std::error::Error>>(())
/// ```
#[derive(Clone, Debug)]
pub struct Form {
    pub(super) width: usize,
    pub(super) height: usize,
    pub(super) bd: u32,
    pub(super) settings: Settings,
    pub(super) parts: Parts,
}

impl Form {
    /// The sheet's width.
    ///
    /// ```
    /// # use palette_station::sheet::{Settings, Sheet};
    /// # let sheet = Sheet::new(2, 1, 8, vec![10, 200])?;
    /// # let form = sheet.search(&Settings::of_depth(8), 1, |_, _| {})?.form;
    /// assert_eq!(form.width(), sheet.width());
    /// # Ok::<(), Box<dyn std::error::Error>>(())
    /// ```
    pub fn width(&self) -> usize {
        self.width
    }

    /// The sheet's height.
    ///
    /// ```
    /// # use palette_station::sheet::{Settings, Sheet};
    /// # let sheet = Sheet::new(2, 1, 8, vec![10, 200])?;
    /// # let form = sheet.search(&Settings::of_depth(8), 1, |_, _| {})?.form;
    /// assert_eq!(form.height(), sheet.height());
    /// # Ok::<(), Box<dyn std::error::Error>>(())
    /// ```
    pub fn height(&self) -> usize {
        self.height
    }

    /// The sheet's depth.
    ///
    /// ```
    /// # use palette_station::sheet::{Settings, Sheet};
    /// # let sheet = Sheet::new(2, 1, 8, vec![10, 200])?;
    /// # let form = sheet.search(&Settings::of_depth(8), 1, |_, _| {})?.form;
    /// assert_eq!(form.bd(), sheet.bd());
    /// # Ok::<(), Box<dyn std::error::Error>>(())
    /// ```
    pub fn bd(&self) -> u32 {
        self.bd
    }

    /// What it was searched with.
    ///
    /// ```
    /// # use palette_station::sheet::{Settings, Sheet};
    /// # let sheet = Sheet::new(2, 1, 8, vec![10, 200])?;
    /// # let form = sheet.search(&Settings::of_depth(8), 1, |_, _| {})?.form;
    /// assert_eq!(*form.settings(), Settings::of_depth(8));
    /// # Ok::<(), Box<dyn std::error::Error>>(())
    /// ```
    pub fn settings(&self) -> &Settings {
        &self.settings
    }

    /// All blocks, row by row from the top and from the left in each.
    ///
    /// ```
    /// # use palette_station::sheet::{Settings, Sheet};
    /// # let sheet = Sheet::new(2, 1, 8, vec![10, 200])?;
    /// # let form = sheet.search(&Settings::of_depth(8), 1, |_, _| {})?.form;
    /// for (area, part) in form.blocks() {
    ///     println!("{} by {} at {}, {}: {part:?}", area.width, area.height, area.x, area.y);
    /// }
    /// # Ok::<(), Box<dyn std::error::Error>>(())
    /// ```
    pub fn blocks(&self) -> impl Iterator<Item = (Area, Part<'_>)> {
        let areas = area::blocks(self.width, self.height, self.settings.side);
        self.parts.placed(areas)
    }

    /// Writes the form. It is many small writes: a file wants a buffer before it.
    ///
    /// ```
    /// # use palette_station::sheet::{Settings, Sheet};
    /// # let sheet = Sheet::new(2, 1, 8, vec![10, 200])?;
    /// # let form = sheet.search(&Settings::of_depth(8), 1, |_, _| {})?.form;
    /// let mut text = Vec::new();
    /// form.write(&mut text)?;
    /// assert_eq!(text.last(), Some(&b'\n'));
    /// # Ok::<(), Box<dyn std::error::Error>>(())
    /// ```
    pub fn write(&self, output: &mut impl Write) -> io::Result<()> {
        self.write_header(output)?;
        for (area, part) in self.blocks() {
            match part {
                Part::List(words) => write_list(words, output)?,
                Part::OneLevel(level) => writeln!(output, "{:8}{:8}{level:8}", 0, 9)?,
                Part::Samples(refusal, samples) => {
                    writeln!(output, "{:8}{:8}", 0, refusal.number())?;
                    let mut rows = samples.chunks(area.width);
                    rows.try_for_each(|row| write_row(row, digits(self.bd), output))?;
                }
            }
        }
        Ok(())
    }

    fn write_header(&self, output: &mut impl Write) -> io::Result<()> {
        let settings = &self.settings;
        let levels = settings.levels.map_or(0, |levels| levels.count());
        writeln!(output, "{NAME}")?;
        writeln!(output, "width {}\nheight {}", self.width, self.height)?;
        writeln!(output, "depth {}\nside {}", self.bd, settings.side)?;
        writeln!(output, "levels {levels}")?;
        writeln!(output, "lambda {:08x}", settings.lambda.to_bits())?;
        write_costs(&settings.costs, output)
    }
}

fn write_costs(costs: &Costs, output: &mut impl Write) -> io::Result<()> {
    writeln!(output, "costs")?;
    for line in costs.as_table().chunks(COSTS_IN_LINE) {
        let words: Vec<String> = line
            .iter()
            .map(|c| format!("{:08x}", c.to_bits()))
            .collect();
        writeln!(output, "{}", words.join(" "))?;
    }
    Ok(())
}

/// Most of a form: by hand, as formatting takes longer than the search.
fn write_list(words: &[u32], output: &mut impl Write) -> io::Result<()> {
    writeln!(output, "{:8}", words.len())?;
    for word in words {
        let mut line = *b"                        \n";
        put(&mut line[..8], word >> 24);
        put(&mut line[8..16], word >> 16 & 0xff);
        put(&mut line[16..24], word & 0xffff);
        output.write_all(&line)?;
    }
    Ok(())
}

/// A number at the right end of its field.
fn put(field: &mut [u8], number: u32) {
    let mut rest = number;
    for place in field.iter_mut().rev() {
        *place = b'0' + (rest % 10) as u8;
        rest /= 10;
        if rest == 0 {
            return;
        }
    }
}

fn write_row(row: &[u16], digits: usize, output: &mut impl Write) -> io::Result<()> {
    let mut line = Vec::with_capacity(row.len() * digits + 1);
    for sample in row {
        let places = (0..digits).rev();
        line.extend(places.map(|place| HEX[usize::from(sample >> (4 * place) & 15)]));
    }
    line.push(b'\n');
    output.write_all(&line)
}

/// Hex digits of a sample.
pub(super) fn digits(bd: u32) -> usize {
    if bd == 8 {
        2
    } else {
        3
    }
}
