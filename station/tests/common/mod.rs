//! What several tests need. Each of them uses a part.
#![allow(dead_code)]

pub mod decode;
pub mod kept;
pub mod page;
pub mod rows;

use palette_station::{Block, Blocks, Colors, Palette, Refusal};
use std::env;
use std::io::Write;
use std::path::{Path, PathBuf};
use std::process::{Command, Stdio};
use std::thread;

/// Fills buffers before a call, so that a write shows.
pub const BYTE: u8 = 0xee;
/// The same for words.
pub const WORD: u32 = 0xeeee_eeee;
/// The same for values.
pub const VALUE: f32 = -7.5;

/// Eight samples of 10, then eight of 20, as often as it takes.
pub fn halves(cells: usize) -> Vec<f32> {
    (0..cells)
        .map(|place| if place % 16 < 8 { 10.0 } else { 20.0 })
        .collect()
}

pub fn block(samples: &[f32], width: usize, height: usize) -> Block<'_> {
    Block {
        samples,
        width,
        height,
        bd: 8,
    }
}

/// A palette of n colours whose map counts through the indices, every cell coded.
pub fn counting(width: usize, height: usize, n: usize) -> Palette {
    let colors: Vec<u16> = (0..n as u16).map(|index| 10 + 20 * index).collect();
    Palette {
        width,
        height,
        bd: 8,
        colors: Colors::new(&colors).expect("at most eight"),
        transposed: false,
        map: (0..width * height).map(|cell| (cell % n) as u8).collect(),
        flags: vec![0; height],
        head: 0.0,
        map_bits: 0.0,
    }
}

/// The bits of what the search counted, head and map bits.
pub fn counted(palette: &Palette) -> [u32; 2] {
    [palette.head, palette.map_bits].map(f32::to_bits)
}

/// An answer whose head and map bits are compared by their bits too.
pub type Bitwise = Result<(Palette, [u32; 2]), Refusal>;

pub fn bitwise(answer: Result<Palette, Refusal>) -> Bitwise {
    answer.map(|palette| {
        let counted = counted(&palette);
        (palette, counted)
    })
}

/// All of a palette but what the search counted, of which its list holds nothing.
pub fn uncounted(palette: &Palette) -> Palette {
    Palette {
        head: 0.0,
        map_bits: 0.0,
        ..palette.clone()
    }
}

/// A call word by its fields.
pub const fn word(kind: u32, first: u32, second: u32) -> u32 {
    kind << 24 | first << 16 | second
}

/// So many cases, or so many times the variable STATION_TIMES for a longer run.
pub fn cases(count: usize) -> usize {
    let times = env::var("STATION_TIMES").ok();
    count * times.map_or(1, |times| times.parse().expect("a whole number"))
}

/// What the listing program prints for a text. LIST_PROGRAM names the program, else it is looked
/// for where `rt run` leaves it; none where it is not built.
pub fn listing_program(text: &[u8]) -> Option<Vec<u8>> {
    program("LIST_PROGRAM", "list", text)
}

/// The same for the report program and REPORT_PROGRAM.
pub fn report_program(text: &[u8]) -> Option<Vec<u8>> {
    program("REPORT_PROGRAM", "report", text)
}

fn program(variable: &str, name: &str, text: &[u8]) -> Option<Vec<u8>> {
    let crates = Path::new(env!("CARGO_MANIFEST_DIR")).join("../crates");
    let built = crates.join(name).join("out").join(name);
    let program = env::var_os(variable).map_or(built, PathBuf::from);
    if !program.exists() {
        eprintln!("skipped: no program {name} (set {variable}, or `rt run` in crates/{name})");
        return None;
    }
    let mut child = Command::new(program)
        .stdin(Stdio::piped())
        .stdout(Stdio::piped())
        .spawn()
        .expect("it runs");
    let mut input = child.stdin.take().expect("a pipe");
    // It may print before it has read all, and end before it too.
    let output = thread::scope(|scope| {
        scope.spawn(move || drop(input.write_all(text)));
        child.wait_with_output().expect("it ends")
    });
    assert!(output.status.success(), "{name}: {}", output.status);
    Some(output.stdout)
}

/// A palette as the programs read it, without a cache.
pub fn program_text(palette: &Palette) -> String {
    let line = |fields: &[u16]| -> String {
        let fields: String = fields.iter().map(|field| format!("{field:8}")).collect();
        fields + "\n"
    };
    let bytes = |bytes: &[u8]| line(&bytes.iter().map(|&b| u16::from(b)).collect::<Vec<u16>>());
    let (width, height) = (palette.width, palette.height);
    let [n, bd, turned] = [
        palette.colors.len(),
        palette.bd as usize,
        palette.transposed.into(),
    ];
    let header = [width, height, n, bd, turned, 0].map(|field| field as u16);
    let rows: String = palette.map.chunks(width).map(bytes).collect();
    line(&header) + &line(&palette.colors) + "\n" + &bytes(&palette.flags) + &rows
}

/// Random numbers by splitmix64.
pub struct Random(pub u64);

impl Random {
    pub fn below(&mut self, end: u64) -> u64 {
        self.0 = self.0.wrapping_add(0x9e37_79b9_7f4a_7c15);
        let mut z = self.0;
        z = (z ^ (z >> 30)).wrapping_mul(0xbf58_476d_1ce4_e5b9);
        z = (z ^ (z >> 27)).wrapping_mul(0x94d0_49bb_1331_11eb);
        (z ^ (z >> 31)) % end
    }

    pub fn between(&mut self, first: usize, last: usize) -> usize {
        first + self.below((last - first + 1) as u64) as usize
    }

    /// Samples of a block: runs of a few levels, with noise that stays within a level.
    pub fn samples(&mut self, cells: usize, bd: u32) -> Vec<f32> {
        let top = (1u64 << bd) - 1;
        let levels: Vec<u64> = (0..self.between(1, 12)).map(|_| self.below(top)).collect();
        let mut level = levels[0];
        (0..cells)
            .map(|_| {
                if self.below(4) == 0 {
                    level = levels[self.between(0, levels.len() - 1)];
                }
                level as f32 + self.below(3) as f32 / 8.0
            })
            .collect()
    }

    /// A block of any sides and depth.
    pub fn drawn(&mut self) -> Drawn {
        let (width, height) = (self.between(1, 64), self.between(1, 64));
        let bd = self.between(8, 12) as u32;
        let samples = self.samples(width * height, bd);
        Drawn {
            samples,
            width,
            height,
            bd,
        }
    }
}

/// A block with its own samples.
pub struct Drawn {
    pub samples: Vec<f32>,
    pub width: usize,
    pub height: usize,
    pub bd: u32,
}

impl Drawn {
    pub fn block(&self) -> Block<'_> {
        Block {
            samples: &self.samples,
            width: self.width,
            height: self.height,
            bd: self.bd,
        }
    }
}

/// Blocks with their samples one block after the other, at the depth of 8 unless it is set.
pub struct Lined {
    pub sides: Vec<[usize; 2]>,
    pub samples: Vec<f32>,
    pub bd: u32,
}

impl Lined {
    pub fn of(blocks: &[Block]) -> Lined {
        let mut lined = Lined {
            sides: Vec::new(),
            samples: Vec::new(),
            bd: 8,
        };
        for block in blocks {
            lined.sides.push([block.width, block.height]);
            lined.samples.extend(block.samples);
        }
        lined
    }

    pub fn blocks(&self) -> Blocks<'_> {
        Blocks {
            sides: &self.sides,
            samples: &self.samples,
            bd: self.bd,
        }
    }

    /// The room that all maps take together.
    pub fn cells(&self) -> usize {
        let cells = self.sides.iter().map(|[width, height]| width * height);
        cells.sum()
    }

    /// The room that all flags take together.
    pub fn lines(&self) -> usize {
        let lines = self.sides.iter().map(|[width, height]| width.max(height));
        lines.sum()
    }
}
