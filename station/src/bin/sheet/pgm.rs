//! A scanned sheet and its file form, PGM (P5).

use palette_station::sheet::Sheet;
use std::io::{self, Read, Write};

/// Room for two bytes a sample stays within 2 GiB.
const MOST_SAMPLES: usize = 1 << 30;
const LEAST_MAXVAL: usize = 255;
const MOST_MAXVAL: usize = 4095;

pub struct Scan {
    pub sheet: Sheet,
    /// White, as the file has it. The sheet has only its depth.
    pub maxval: u16,
}

/// Reads a whole file: header, samples, and nothing after them.
pub fn read(input: &mut impl Read) -> Result<Scan, String> {
    let mut header = Header { input };
    header.magic()?;
    let width = header.number("width")?;
    let height = header.number("height")?;
    let maxval = header.number("maxval")?;
    check_sides(width, height)?;
    if !(LEAST_MAXVAL..=MOST_MAXVAL).contains(&maxval) {
        return Err(format!(
            "maxval {maxval} is not within {LEAST_MAXVAL} to {MOST_MAXVAL}"
        ));
    }
    let maxval = maxval as u16;
    let samples = read_rows(input, width, height, maxval)?;
    if next_byte(input)?.is_some() {
        return Err("bytes follow the last sample".to_string());
    }
    let sheet = Sheet::new(width, height, depth(maxval), samples).map_err(|e| e.to_string())?;
    Ok(Scan { sheet, maxval })
}

/// The least depth that holds every sample.
fn depth(maxval: u16) -> u32 {
    (8..12).find(|&bd| maxval < 1 << bd).unwrap_or(12)
}

fn check_sides(width: usize, height: usize) -> Result<(), String> {
    if width == 0 || height == 0 {
        return Err("a side of the sheet is 0".to_string());
    }
    match width.checked_mul(height) {
        Some(count) if count <= MOST_SAMPLES => Ok(()),
        _ => Err(format!(
            "{width} by {height} is more than {MOST_SAMPLES} samples"
        )),
    }
}

/// Row by row as far as the file goes, so that a header that promises too much takes no more room
/// than the file has.
fn read_rows(
    input: &mut impl Read,
    width: usize,
    height: usize,
    maxval: u16,
) -> Result<Vec<u16>, String> {
    let wanted = width * sample_bytes(maxval);
    let mut bytes = Vec::new();
    let mut samples = Vec::new();
    for y in 0..height {
        bytes.clear();
        let row = input.by_ref().take(wanted as u64).read_to_end(&mut bytes);
        if row.map_err(|e| e.to_string())? < wanted {
            return Err(format!("cut off in row {y} of {height}"));
        }
        let start = samples.len();
        push_row(&bytes, maxval, &mut samples);
        if let Some(x) = samples[start..].iter().position(|&v| v > maxval) {
            return Err(format!(
                "the sample at column {x} of row {y} is above maxval {maxval}"
            ));
        }
    }
    Ok(samples)
}

fn push_row(bytes: &[u8], maxval: u16, samples: &mut Vec<u16>) {
    if sample_bytes(maxval) == 1 {
        samples.extend(bytes.iter().map(|&b| u16::from(b)));
    } else {
        let pairs = bytes.chunks_exact(2);
        samples.extend(pairs.map(|pair| u16::from_be_bytes([pair[0], pair[1]])));
    }
}

fn sample_bytes(maxval: u16) -> usize {
    if maxval < 256 {
        1
    } else {
        2
    }
}

pub fn write(scan: &Scan, output: &mut impl Write) -> io::Result<()> {
    let (width, height) = (scan.sheet.width(), scan.sheet.height());
    write!(output, "P5\n{width} {height}\n{}\n", scan.maxval)?;
    for sample in scan.sheet.samples() {
        let bytes = sample.to_be_bytes();
        output.write_all(&bytes[2 - sample_bytes(scan.maxval)..])?;
    }
    Ok(())
}

struct Header<'a, R: Read> {
    input: &'a mut R,
}

impl<R: Read> Header<'_, R> {
    fn magic(&mut self) -> Result<(), String> {
        let start = [next_byte(self.input)?, next_byte(self.input)?];
        if start == [Some(b'P'), Some(b'5')] && is_space(self.byte("width")?) {
            Ok(())
        } else {
            Err("not a PGM file (P5)".to_string())
        }
    }

    /// Skips white space, then takes digits and the one white space that ends them.
    fn number(&mut self, what: &str) -> Result<usize, String> {
        let mut value: Option<usize> = None;
        loop {
            let byte = self.byte(what)?;
            match (byte, value) {
                (b'0'..=b'9', before) => {
                    let digit = usize::from(byte - b'0');
                    let longer = before.unwrap_or(0).checked_mul(10);
                    let longer = longer.and_then(|v| v.checked_add(digit));
                    value = Some(longer.ok_or_else(|| format!("{what} is too large"))?);
                }
                (_, Some(whole)) if is_space(byte) => return Ok(whole),
                (_, None) if is_space(byte) => {}
                _ => return Err(format!("{what} is not a number")),
            }
        }
    }

    /// A comment counts as the line end behind it, wherever it stands.
    fn byte(&mut self, what: &str) -> Result<u8, String> {
        let mut byte = next_byte(self.input)?;
        if byte == Some(b'#') {
            while !matches!(byte, None | Some(b'\n' | b'\r')) {
                byte = next_byte(self.input)?;
            }
        }
        byte.ok_or_else(|| format!("cut off in the header, at {what}"))
    }
}

/// White space as PGM has it.
fn is_space(byte: u8) -> bool {
    matches!(byte, b' ' | b'\t' | b'\n' | b'\r' | 0x0b | 0x0c)
}

fn next_byte(input: &mut impl Read) -> Result<Option<u8>, String> {
    let mut byte = [0];
    loop {
        match input.read(&mut byte) {
            Ok(0) => return Ok(None),
            Ok(_) => return Ok(Some(byte[0])),
            Err(e) if e.kind() == io::ErrorKind::Interrupted => {}
            Err(e) => return Err(e.to_string()),
        }
    }
}
