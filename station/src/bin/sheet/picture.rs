//! The scan as a PPM picture (P6), each block tinted by what became of it.

use crate::pgm::Scan;
use palette_station::sheet::{Form, Part};
use palette_station::Refusal;
use std::io::{self, Write};

type Tint = [u16; 3];

pub fn write(scan: &Scan, form: &Form, output: &mut impl Write) -> io::Result<()> {
    let (width, height, side) = (form.width(), form.height(), form.settings().side);
    write!(output, "P6\n{width} {height}\n255\n")?;
    let tints: Vec<Tint> = form.blocks().map(|(_, part)| tint(part)).collect();
    let rows: Vec<&[Tint]> = tints.chunks(width.div_ceil(side)).collect();
    let mut pixels = Vec::with_capacity(3 * width);
    for (y, line) in scan.sheet.samples().chunks_exact(width).enumerate() {
        pixels.clear();
        for (samples, &tint) in line.chunks(side).zip(rows[y / side]) {
            pixels.extend(samples.iter().flat_map(|&v| pixel(v, scan.maxval, tint)));
        }
        output.write_all(&pixels)?;
    }
    Ok(())
}

/// Two parts of the scan to one of tint, so that ink and paper both show it.
fn pixel(sample: u16, maxval: u16, tint: Tint) -> [u8; 3] {
    let grey = u32::from(sample) * 255 / u32::from(maxval);
    tint.map(|t| ((2 * grey + u32::from(t)) / 3) as u8)
}

fn tint(part: Part) -> Tint {
    /// For 2 to 8 colours.
    const BY_COLORS: [Tint; 7] = [
        [120, 255, 120],
        [60, 230, 60],
        [0, 200, 110],
        [0, 200, 200],
        [0, 140, 255],
        [40, 60, 255],
        [150, 40, 255],
    ];
    const ONE_LEVEL: Tint = [190, 190, 190];
    const SMALL: Tint = [255, 220, 0];
    const MANY_LEVELS: Tint = [255, 0, 0];
    const OTHER: Tint = [255, 0, 200];
    match part {
        // A list begins with the size symbol, whose value is the number of colours less 2.
        Part::List(words) => *words
            .first()
            .and_then(|word| BY_COLORS.get((word & 0xffff) as usize))
            .unwrap_or(&OTHER),
        Part::OneLevel(_) => ONE_LEVEL,
        Part::Samples(Refusal::SMALL, _) => SMALL,
        Part::Samples(..) => MANY_LEVELS,
    }
}
