//! The sample sheet: a drawing as a scanner would see it, the same on every machine. Only
//! arithmetic and square roots are used, which IEEE 754 fixes to the bit.

use crate::lettering;
use crate::pgm::Scan;
use palette_station::sheet::Sheet;
use palette_station::Refusal;

const WIDTH: usize = 2480;
const HEIGHT: usize = 3508;
const PAPER: u16 = 240;
/// An edge falls from paper to ink in this many steps.
const STEPS: f64 = 15.0;
const STEP_HEIGHT: u16 = 15;

pub type Point = (f64, f64);

/// A rectangle: left, top, right, bottom.
type Area = (f64, f64, f64, f64);

pub fn sample() -> Result<Scan, Refusal> {
    let mut paper = Paper {
        samples: vec![PAPER; WIDTH * HEIGHT],
    };
    frame(&mut paper);
    wheel(&mut paper, (1240.0, 1080.0));
    section(&mut paper);
    shading(&mut paper, (300.0, 2780.0, 900.0, 3140.0));
    lettering_of(&mut paper);
    let sheet = Sheet::new(WIDTH, HEIGHT, 8, paper.samples)?;
    Ok(Scan { sheet, maxval: 255 })
}

fn frame(paper: &mut Paper) {
    paper.rectangle((120.0, 120.0, 2360.0, 3388.0), 3.0);
    paper.rectangle((150.0, 150.0, 2330.0, 3358.0), 1.0);
    paper.rectangle((1480.0, 2980.0, 2330.0, 3358.0), 1.5);
    for y in [3075.0, 3170.0, 3265.0] {
        paper.stroke((1480.0, y), (2330.0, y), 1.0);
    }
    paper.stroke((1800.0, 2980.0), (1800.0, 3358.0), 1.0);
}

/// Figure 1: a wheel with hatched rim and spokes. The spokes' directions are of whole-number
/// triangles, so that no sine is needed.
fn wheel(paper: &mut Paper, centre: Point) {
    for radius in [640.0, 560.0, 170.0, 90.0] {
        paper.ring(centre, radius, 2.5);
    }
    paper.hatch(
        around(centre, 640.0),
        |p| (562.0..638.0).contains(&distance(p, centre)),
        |(x, y)| x + y,
    );
    paper.hatch(
        around(centre, 170.0),
        |p| (92.0..168.0).contains(&distance(p, centre)),
        |(x, y)| x - y,
    );
    for (a, b, c) in [(3.0, 4.0, 5.0), (12.0, 5.0, 13.0), (8.0, 15.0, 17.0)] {
        for (along, across) in [(a / c, b / c), (-b / c, a / c)] {
            spoke(paper, centre, (along, across));
            spoke(paper, centre, (-along, -across));
        }
    }
    leader(paper, (1750.0, 700.0), (2080.0, 480.0), "12");
    leader(paper, (1150.0, 1000.0), (420.0, 520.0), "14");
    leader(paper, (1500.0, 1280.0), (2120.0, 1700.0), "20");
}

fn spoke(paper: &mut Paper, (x, y): Point, (along, across): Point) {
    for side in [-14.0, 14.0] {
        let (dx, dy) = (-across * side, along * side);
        let from = (x + along * 172.0 + dx, y + across * 172.0 + dy);
        let to = (x + along * 558.0 + dx, y + across * 558.0 + dy);
        paper.stroke(from, to, 1.5);
    }
}

/// Figure 2: a section through bars, hatched one way and the other.
fn section(paper: &mut Paper) {
    let bars = [
        (420.0, 2040.0, 2060.0, 2160.0),
        (420.0, 2160.0, 760.0, 2560.0),
        (1720.0, 2160.0, 2060.0, 2560.0),
        (760.0, 2300.0, 1720.0, 2420.0),
    ];
    for (i, bar) in bars.into_iter().enumerate() {
        paper.rectangle(bar, 2.0);
        let turn = if i % 2 == 0 { 1.0 } else { -1.0 };
        paper.hatch(bar, |_| true, |(x, y)| x + turn * y);
    }
    // The centre line, in long and short dashes.
    let mut x = 360.0;
    while x < 2120.0 {
        paper.stroke((x, 2360.0), (x + 60.0, 2360.0), 1.0);
        paper.stroke((x + 75.0, 2360.0), (x + 85.0, 2360.0), 1.0);
        x += 100.0;
    }
    leader(paper, (1900.0, 2090.0), (2180.0, 1960.0), "32");
    leader(paper, (560.0, 2480.0), (320.0, 2640.0), "34");
}

/// A washed patch as of a photograph: too many levels for a palette.
fn shading(paper: &mut Paper, area: Area) {
    let (left, top, right, bottom) = area;
    for y in top as usize..bottom as usize {
        for x in left as usize..right as usize {
            let slope = ((x - left as usize) / 2 + (y - top as usize) / 3) % 400;
            let shade = slope.min(399 - slope) as u16;
            paper.samples[y * WIDTH + x] = 235 - shade;
        }
    }
    paper.rectangle((left, top, right, bottom), 2.0);
}

fn leader(paper: &mut Paper, part: Point, label: Point, text: &str) {
    paper.stroke(part, label, 1.0);
    let (x, y) = label;
    lettering::write(paper, (x + 10.0, y - 50.0), 44.0, text);
}

fn lettering_of(paper: &mut Paper) {
    lettering::write(paper, (300.0, 200.0), 56.0, "PATENT");
    lettering::write(paper, (1000.0, 200.0), 56.0, "1874");
    lettering::write(paper, (1560.0, 200.0), 56.0, "PLATE 1 OF 2");
    lettering::write(paper, (1120.0, 1820.0), 72.0, "FIG. 1");
    lettering::write(paper, (1120.0, 2640.0), 72.0, "FIG. 2");
    lettering::write(paper, (460.0, 3180.0), 56.0, "FIG. 3");
    let lines = [
        ("PLATE", "1-7"),
        ("DATE", "1874"),
        ("PAGE", "26"),
        ("GATE", "305.9"),
    ];
    for (i, (name, text)) in lines.into_iter().enumerate() {
        let y = 3008.0 + 95.0 * i as f64;
        lettering::write(paper, (1510.0, y), 40.0, name);
        lettering::write(paper, (1830.0, y), 40.0, text);
    }
}

pub struct Paper {
    samples: Vec<u16>,
}

impl Paper {
    pub fn stroke(&mut self, from: Point, to: Point, half: f64) {
        let reach = half + 1.0;
        let area = (
            from.0.min(to.0) - reach,
            from.1.min(to.1) - reach,
            from.0.max(to.0) + reach,
            from.1.max(to.1) + reach,
        );
        self.ink(area, |p| half + 0.5 - to_segment(p, from, to));
    }

    fn rectangle(&mut self, (left, top, right, bottom): Area, half: f64) {
        self.stroke((left, top), (right, top), half);
        self.stroke((right, top), (right, bottom), half);
        self.stroke((right, bottom), (left, bottom), half);
        self.stroke((left, bottom), (left, top), half);
    }

    fn ring(&mut self, centre: Point, radius: f64, half: f64) {
        let area = around(centre, radius + half + 1.0);
        self.ink(area, |p| half + 0.5 - (distance(p, centre) - radius).abs());
    }

    /// Lines where `height` is a multiple of the pitch, as far as `inside` says.
    fn hatch(&mut self, area: Area, inside: impl Fn(Point) -> bool, height: impl Fn(Point) -> f64) {
        const PITCH: f64 = 28.0;
        self.ink(area, |p| {
            if !inside(p) {
                return 0.0;
            }
            let over = height(p).rem_euclid(PITCH);
            let slant = 2.0_f64.sqrt();
            1.5 - over.min(PITCH - over) / slant
        });
    }

    /// Darkens each sample by the share of it that `cover` says is inked.
    fn ink(&mut self, (left, top, right, bottom): Area, cover: impl Fn(Point) -> f64) {
        let columns = left.max(0.0) as usize..(right.max(0.0) as usize + 1).min(WIDTH);
        for y in top.max(0.0) as usize..(bottom.max(0.0) as usize + 1).min(HEIGHT) {
            for x in columns.clone() {
                let share = cover((x as f64 + 0.5, y as f64 + 0.5)).clamp(0.0, 1.0);
                let level = PAPER - (share * STEPS) as u16 * STEP_HEIGHT;
                let sample = &mut self.samples[y * WIDTH + x];
                *sample = level.min(*sample);
            }
        }
    }
}

fn around((x, y): Point, reach: f64) -> Area {
    (x - reach, y - reach, x + reach, y + reach)
}

fn distance(a: Point, b: Point) -> f64 {
    let (dx, dy) = (a.0 - b.0, a.1 - b.1);
    (dx * dx + dy * dy).sqrt()
}

fn to_segment(p: Point, from: Point, to: Point) -> f64 {
    let (dx, dy) = (to.0 - from.0, to.1 - from.1);
    let along = (p.0 - from.0) * dx + (p.1 - from.1) * dy;
    // A dot is a stroke of no length.
    let length = (dx * dx + dy * dy).max(1e-9);
    let part = (along / length).clamp(0.0, 1.0);
    distance(p, (from.0 + part * dx, from.1 + part * dy))
}
