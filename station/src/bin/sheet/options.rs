//! The command line.

use crate::whole;
use palette_station::sheet::Levels;
use palette_station::MAX_SIDE;
use std::ffi::{OsStr, OsString};
use std::path::{Path, PathBuf};
use std::str::FromStr;

pub const HELP: &str = "\
usage: sheet [OPTION]... [FILE]

Cuts a scanned sheet into blocks, searches a palette for each, lists its calls
and prints a summary. FILE is a PGM scan (P5, maxval 255 to 4095), or - for
standard input. Without FILE a sample drawing is made and searched.

  --side N        side of a block, 1 to 64 (64); blocks at the edges are smaller
  --levels N      first round the samples to N evenly spaced greys, 2 to 32
                  (as scanned); a noisy scan has too many for palettes, try 16
  --lambda X      weight of the bits, 0 to 1048576 (60 at 8 bits, four times as
                  much for each bit more)
  --costs FILE    301 costs, each 0 to 32, separated by white space
                  (made from the default rows, in sixteenths of a bit)
  --threads N     1 to 256 (1); the output does not depend on it
  --lists FILE    write what the sheet is known by: sides, depth and options,
                  then per block its call list, or its number with its level or
                  its samples; - for standard output, the summary then goes to
                  standard error (as a short key:
                  sheet scan.pgm --lists - | sha256sum)
  --picture FILE  write the sheet as PPM, its blocks tinted: found with 2 to 8
                  colours green to blue to violet; refused for its sides (8)
                  yellow, one level (9) grey, more than 32 levels (10) red
  --report FILE   write a line for each block with a palette, up to 9999: its
                  number, calls, cells and raw width; at the end 0, the totals,
                  and raw width per cell as numerator and denominator
  --sample FILE   write the sample drawing as PGM, where FILE is not given
  --help          print this
";

const MOST_THREADS: usize = 256;
const MOST_LAMBDA: f32 = 1_048_576.0;

pub struct Options {
    pub input: Option<PathBuf>,
    pub side: usize,
    pub levels: Option<Levels>,
    /// None: as the depth has it.
    pub lambda: Option<f32>,
    pub threads: usize,
    pub costs: Option<PathBuf>,
    pub lists: Option<PathBuf>,
    pub picture: Option<PathBuf>,
    pub report: Option<PathBuf>,
    pub sample: Option<PathBuf>,
}

impl Options {
    /// The files that are written.
    pub fn files(&self) -> impl Iterator<Item = &Path> {
        let others = [&self.picture, &self.report, &self.sample].map(Option::as_deref);
        [self.lists_file()].into_iter().chain(others).flatten()
    }

    pub fn lists_file(&self) -> Option<&Path> {
        self.lists.as_deref().filter(|path| !is_dash(path))
    }

    pub fn prints_lists(&self) -> bool {
        self.lists.as_deref().is_some_and(is_dash)
    }
}

/// Standard input or output.
pub fn is_dash(path: &Path) -> bool {
    path.as_os_str() == "-"
}

pub enum Request {
    Help,
    Run(Options),
}

pub fn parse(words: impl Iterator<Item = OsString>) -> Result<Request, String> {
    let mut words = words;
    let mut options = defaults();
    let mut seen = Vec::new();
    while let Some(word) = words.next() {
        if word == "--help" {
            return Ok(Request::Help);
        }
        if !is_option(&word) {
            set_input(&mut options, word)?;
            continue;
        }
        let name = known(&word)?;
        if seen.contains(&name) {
            return Err(format!("{name} is given twice"));
        }
        seen.push(name);
        let value = words
            .next()
            .ok_or_else(|| format!("{name} needs a value"))?;
        set(&mut options, name, value)?;
    }
    check(&options)?;
    Ok(Request::Run(options))
}

fn defaults() -> Options {
    Options {
        input: None,
        side: MAX_SIDE,
        levels: None,
        lambda: None,
        threads: 1,
        costs: None,
        lists: None,
        picture: None,
        report: None,
        sample: None,
    }
}

fn is_option(word: &OsStr) -> bool {
    word != "-" && word.as_encoded_bytes().starts_with(b"-")
}

fn set_input(options: &mut Options, word: OsString) -> Result<(), String> {
    if options.input.is_some() {
        return Err(format!("more than one sheet: {}", word.to_string_lossy()));
    }
    options.input = Some(word.into());
    Ok(())
}

fn known(word: &OsStr) -> Result<&'static str, String> {
    const NAMES: [&str; 9] = [
        "--side",
        "--levels",
        "--lambda",
        "--threads",
        "--costs",
        "--lists",
        "--picture",
        "--report",
        "--sample",
    ];
    NAMES.into_iter().find(|name| word == *name).ok_or_else(|| {
        let word = word.to_string_lossy();
        format!("unknown option {word} (--help lists the options)")
    })
}

fn set(options: &mut Options, name: &str, value: OsString) -> Result<(), String> {
    match name {
        "--side" => options.side = whole_number(name, &value, MAX_SIDE)?,
        "--levels" => options.levels = Some(levels(&value)?),
        "--threads" => options.threads = whole_number(name, &value, MOST_THREADS)?,
        "--lambda" => options.lambda = Some(lambda(&value)?),
        "--costs" => options.costs = Some(value.into()),
        "--lists" => options.lists = Some(value.into()),
        "--picture" => options.picture = Some(value.into()),
        "--report" => options.report = Some(value.into()),
        _ => options.sample = Some(value.into()),
    }
    Ok(())
}

fn whole_number(name: &str, value: &OsStr, most: usize) -> Result<usize, String> {
    match parsed(value) {
        Some(number) if (1..=most).contains(&number) => Ok(number),
        _ => {
            let value = value.to_string_lossy();
            Err(format!("{name} is 1 to {most}, not {value}"))
        }
    }
}

fn levels(value: &OsStr) -> Result<Levels, String> {
    parsed(value).and_then(Levels::new).ok_or_else(|| {
        let value = value.to_string_lossy();
        format!("--levels is 2 to 32, not {value}")
    })
}

fn lambda(value: &OsStr) -> Result<f32, String> {
    match parsed(value) {
        Some(number) if (0.0..=MOST_LAMBDA).contains(&number) => Ok(number),
        _ => {
            let value = value.to_string_lossy();
            Err(format!("--lambda is 0 to {MOST_LAMBDA}, not {value}"))
        }
    }
}

fn parsed<T: FromStr>(value: &OsStr) -> Option<T> {
    value.to_str()?.parse().ok()
}

/// No output may fall on another one, on what is read, or on the file behind a standard stream.
fn check(options: &Options) -> Result<(), String> {
    if options.input.is_some() && options.sample.is_some() {
        return Err("--sample goes without a sheet".to_string());
    }
    let streams = ["/dev/stdin", "/dev/stdout", "/dev/stderr"].map(Path::new);
    let input = options.input.as_deref().filter(|path| !is_dash(path));
    let read = [input, options.costs.as_deref()].into_iter().flatten();
    let mut taken: Vec<PathBuf> = streams.into_iter().chain(read).map(whole::place).collect();
    for path in options.files() {
        if is_dash(path) {
            return Err("only the sheet and --lists may be -".to_string());
        }
        let place = whole::place(path);
        if taken.contains(&place) {
            return Err(format!("{} is used twice", path.display()));
        }
        taken.push(place);
    }
    Ok(())
}
