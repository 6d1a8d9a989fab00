//! Drawn sheets of grey samples, the same on every machine, and the blocks that they are cut into.

use super::random::Random;

const WIDTH: usize = 2480;
const HEIGHT: usize = 3508;

/// The depth of all sheets.
pub const DEPTH: u32 = 8;

/// A4 at 300 dots per inch, row by row.
pub struct Sheet {
    pub name: &'static str,
    samples: Vec<u8>,
}

/// A block of a sheet.
pub struct Cut {
    pub w: usize,
    pub h: usize,
    pub samples: Vec<f32>,
}

/// Left upper corners of the blocks of a side, row by row.
pub fn corners(side: usize) -> impl Iterator<Item = (usize, usize)> {
    corners_of((side, side))
}

/// Those of blocks of a width and a height.
pub fn corners_of((width, height): (usize, usize)) -> impl Iterator<Item = (usize, usize)> {
    let rows = (0..HEIGHT).step_by(height);
    rows.flat_map(move |y| (0..WIDTH).step_by(width).map(move |x| (x, y)))
}

impl Sheet {
    /// The block of a side with its left upper corner at a place, cut off at the sheet's edges.
    pub fn cut(&self, corner: (usize, usize), side: usize) -> Cut {
        self.cut_to(corner, (side, side))
    }

    /// That of a width and a height.
    pub fn cut_to(&self, (x, y): (usize, usize), (width, height): (usize, usize)) -> Cut {
        let (w, h) = (width.min(WIDTH - x), height.min(HEIGHT - y));
        let row = |row: usize| &self.samples[row * WIDTH + x..][..w];
        let samples = (y..y + h).flat_map(|y| row(y).iter().map(|&s| f32::from(s)));
        let samples = samples.collect();
        Cut { w, h, samples }
    }
}

/// The sheets that are timed.
pub fn sheets() -> [Sheet; 3] {
    [drawing(), hatching(2), random_levels()]
}

/// Points of a pixel in each direction that a stroke covers or does not: 17 greys in all, as a
/// drawing program with 4 by 4 points would give.
const POINTS: usize = 4;

const STROKES: u64 = 900;

struct Stroke {
    from: (f64, f64),
    to: (f64, f64),
    radius: f64,
}

impl Stroke {
    fn drawn(number: u64) -> Self {
        let random = &mut Random::new(1, number);
        let from = (random.unit() * WIDTH as f64, random.unit() * HEIGHT as f64);
        let (length, angle) = (40.0 + 360.0 * random.unit(), 6.3 * random.unit());
        let to = (from.0 + length * angle.cos(), from.1 + length * angle.sin());
        let radius = 0.7 + 2.5 * random.unit();
        Stroke { from, to, radius }
    }

    /// The distance of a point from the stroke's middle line, squared.
    fn distance(&self, x: f64, y: f64) -> f64 {
        let (dx, dy) = (self.to.0 - self.from.0, self.to.1 - self.from.1);
        let (px, py) = (x - self.from.0, y - self.from.1);
        let along = ((px * dx + py * dy) / (dx * dx + dy * dy)).clamp(0.0, 1.0);
        let (ex, ey) = (px - along * dx, py - along * dy);
        ex * ex + ey * ey
    }

    /// How many points of a pixel are covered.
    fn covered(&self, x: usize, y: usize) -> usize {
        let middle = self.distance(x as f64 + 0.5, y as f64 + 0.5).sqrt();
        if middle > self.radius + 1.0 {
            return 0;
        }
        let at = |whole: usize, point: usize| whole as f64 + (point as f64 + 0.5) / POINTS as f64;
        (0..POINTS * POINTS)
            .filter(|point| {
                let distance = self.distance(at(x, point % POINTS), at(y, point / POINTS));
                distance <= self.radius * self.radius
            })
            .count()
    }

    /// The pixels from and to which the stroke may reach in one direction.
    fn reach(&self, one: f64, other: f64, end: usize) -> std::ops::Range<usize> {
        let low = (one.min(other) - self.radius - 1.0).max(0.0) as usize;
        let high = (one.max(other) + self.radius + 2.0).max(0.0) as usize;
        low.min(end)..high.min(end)
    }
}

/// Dark strokes with grey edges on white.
fn drawing() -> Sheet {
    let mut samples = vec![255; WIDTH * HEIGHT];
    for stroke in (0..STROKES).map(Stroke::drawn) {
        for y in stroke.reach(stroke.from.1, stroke.to.1, HEIGHT) {
            for x in stroke.reach(stroke.from.0, stroke.to.0, WIDTH) {
                let covered = stroke.covered(x, y) * 255 / (POINTS * POINTS);
                let sample = &mut samples[y * WIDTH + x];
                *sample = (*sample).min(255 - covered as u8);
            }
        }
    }
    Sheet {
        name: "drawing",
        samples,
    }
}

/// Patches of parallel lines, each with its direction, its distance of lines and two of eight
/// levels.
pub fn hatching(seed: u64) -> Sheet {
    const PATCH: (usize, usize) = (150, 110);
    let sample = |x: usize, y: usize| {
        let patch = y / PATCH.1 * WIDTH.div_ceil(PATCH.0) + x / PATCH.0;
        let random = &mut Random::new(seed, patch as u64);
        let (across, down) = (random.below(4), random.between(1, 3));
        let (period, thick) = (random.between(6, 15), random.between(2, 4));
        let (ground, ink) = (random.below(8), random.below(8));
        let level = if (x * across + y * down) % period < thick {
            ink
        } else {
            ground
        };
        (level * 36) as u8
    };
    each("hatching", sample)
}

/// Any of 32 levels in each place.
fn random_levels() -> Sheet {
    let random = &mut Random::new(3, 0);
    each("random", |_, _| (random.below(32) * 8) as u8)
}

fn each(name: &'static str, mut sample: impl FnMut(usize, usize) -> u8) -> Sheet {
    let samples = (0..WIDTH * HEIGHT).map(|at| sample(at % WIDTH, at / WIDTH));
    let samples = samples.collect();
    Sheet { name, samples }
}
