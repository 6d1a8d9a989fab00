//! Reads a list back into a palette, as a decoder would, from the documents' text; or gives
//! document 02's number for the list.

use palette_station::{context, list, Call, Calls, Colors, Palette};

/// What is read, or the number.
pub type Read<T> = Result<T, u32>;

const ENDED: u32 = 20;
const FAULTY: u32 = 21;
const LEFT_OVER: u32 = 22;
const NOT_LISTED: u32 = 23;

/// The calls still to come.
struct Reading<'w>(Calls<'w>);

impl Reading<'_> {
    /// A word beyond the ranges of its kind is no call.
    fn next(&mut self) -> Read<Call> {
        let call = self.0.next().ok_or(ENDED)?;
        call.map_err(|_| FAULTY)
    }

    fn bypass(&mut self, due: u32) -> Read<u32> {
        match self.next()? {
            Call::Bypass { width, value } if width == due => Ok(value),
            _ => Err(FAULTY),
        }
    }

    fn size(&mut self) -> Read<usize> {
        match self.next()? {
            Call::Size { value } => Ok(value as usize + 2),
            _ => Err(FAULTY),
        }
    }

    fn uniform(&mut self, due: usize) -> Read<u8> {
        match self.next()? {
            Call::Uniform { n, value } if n as usize == due => Ok(value as u8),
            _ => Err(FAULTY),
        }
    }

    /// The flag under the flag before, or under 3: the first line copies none.
    fn row(&mut self, due: u8) -> Read<u8> {
        match self.next()? {
            Call::Row {
                context: 3,
                flag: 2,
            } => Err(FAULTY),
            Call::Row { context, flag } if context == u32::from(due) => Ok(flag as u8),
            _ => Err(FAULTY),
        }
    }

    fn rank(&mut self, due: usize, under: u8) -> Read<usize> {
        match self.next()? {
            Call::Color { n, context, rank } if n as usize == due && context == under.into() => {
                Ok(rank as usize)
            }
            _ => Err(FAULTY),
        }
    }
}

/// A list for accepted sides, depth and cache.
pub fn decode(
    words: &[u32],
    (width, height): (usize, usize),
    bd: u32,
    cache: &[u16],
) -> Read<Palette> {
    let mut reading = Reading(Calls::new(words));
    let n = reading.size()?;
    let mut colors = cached(&mut reading, cache, n)?;
    let left = n - colors.len();
    colors.extend(literals(&mut reading, left, bd)?);
    colors.sort_unstable();
    let transposed = width.max(height) < 64 && reading.bypass(1)? == 1;
    let (map, flags) = map(&mut reading, (width, height), transposed, n)?;
    if reading.0.next().is_some() {
        return Err(LEFT_OVER);
    }
    let palette = Palette {
        width,
        height,
        bd,
        colors: Colors::new(&colors).expect("n is at most 8"),
        transposed,
        map,
        flags,
        head: 0.0,
        map_bits: 0.0,
    };
    match list(&palette, cache) {
        Ok(listing) if listing.words == words => Ok(palette),
        _ => Err(NOT_LISTED),
    }
}

/// The colours that the cache bits take. Each 1 counts as one, whatever its entry.
fn cached(reading: &mut Reading, cache: &[u16], n: usize) -> Read<Vec<u16>> {
    let mut taken = Vec::new();
    for &entry in cache {
        if taken.len() < n && reading.bypass(1)? == 1 {
            taken.push(entry);
        }
    }
    Ok(taken)
}

fn literals(reading: &mut Reading, count: usize, bd: u32) -> Read<Vec<u16>> {
    if count == 0 {
        return Ok(Vec::new());
    }
    let top = (1 << bd) - 1;
    let mut color = reading.bypass(bd)?;
    let mut colors = vec![color as u16];
    if count > 1 {
        let mut width = bd - 3 + reading.bypass(2)?;
        for _ in 1..count {
            color += reading.bypass(width)? + 1;
            if color > top {
                return Err(FAULTY);
            }
            colors.push(color as u16);
            width = width.min(ceil_log2(top - color));
        }
    }
    Ok(colors)
}

fn ceil_log2(value: u32) -> u32 {
    value.max(1).next_power_of_two().ilog2()
}

/// The map and its flags. Neighbours are left and above also when the lines are columns.
fn map(
    reading: &mut Reading,
    (width, height): (usize, usize),
    transposed: bool,
    n: usize,
) -> Read<(Vec<u8>, Vec<u8>)> {
    let (mut map, mut flags) = (vec![0; width * height], Vec::<u8>::new());
    let (lines, length) = if transposed {
        (width, height)
    } else {
        (height, width)
    };
    let cell_of = |line, at| if transposed { (at, line) } else { (line, at) };
    for line in 0..lines {
        let flag = reading.row(flags.last().copied().unwrap_or(3))?;
        flags.push(flag);
        for at in 0..length {
            let (y, x) = cell_of(line, at);
            let like = |line, at| {
                let (y, x) = cell_of(line, at);
                map[y * width + x]
            };
            map[y * width + x] = match (flag, at) {
                (0, _) | (1, 0) => coded(reading, &map, width, (y, x), n)?,
                (1, _) => like(line, 0),
                _ => like(line - 1, at),
            };
        }
    }
    Ok((map, flags))
}

fn coded(
    reading: &mut Reading,
    map: &[u8],
    width: usize,
    cell: (usize, usize),
    n: usize,
) -> Read<u8> {
    if cell == (0, 0) {
        return reading.uniform(n);
    }
    let found = context(map, width, cell.0, cell.1, n).expect("the neighbours are there");
    Ok(found.order()[reading.rank(n, found.value())?])
}
