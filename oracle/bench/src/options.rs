//! What is asked on the command line.

use palette_oracle::generate::sheets::{sheets, Sheet};
use std::str::FromStr;

const USAGE: &str = "usage: bench [--plot FILE] | strips | against OLD NEW\n\
     then [--part N] [--passes N] [--sheet NAME] [--side N] [--lambda N]";
const SIDES: [usize; 3] = [64, 32, 16];
const LAMBDAS: [f32; 3] = [20.0, 60.0, 200.0];
const PASSES: usize = 5;

pub enum What {
    Ours,
    /// Strips beside separate searches.
    Strips,
    /// Two archives, by their files.
    Against(String, String),
}

pub struct Options {
    pub what: What,
    /// Only each so many-th block, or strip.
    pub part: usize,
    pub passes: usize,
    /// Where the chart goes.
    pub plot: Option<String>,
    /// Only this sheet, side or lambda.
    sheet: Option<String>,
    side: Option<usize>,
    lambda: Option<f32>,
}

impl Options {
    pub fn read() -> Result<Options, String> {
        let arguments: Vec<String> = std::env::args().skip(1).collect();
        Options::of(&arguments).ok_or(USAGE.to_string())
    }

    fn of(arguments: &[String]) -> Option<Options> {
        let (what, named) = match arguments {
            [strips, named @ ..] if strips == "strips" => (What::Strips, named),
            [against, old, new, named @ ..] if against == "against" => {
                (What::Against(old.clone(), new.clone()), named)
            }
            named => (What::Ours, named),
        };
        let mut options = Options {
            what,
            part: 1,
            passes: PASSES,
            plot: None,
            sheet: None,
            side: None,
            lambda: None,
        };
        for pair in named.chunks(2) {
            let [name, value] = pair else { return None };
            options.set(name, value)?;
        }
        Some(options)
    }

    /// None if there is no option of the name, or it does not take the value.
    fn set(&mut self, name: &str, value: &str) -> Option<()> {
        match (name, &self.what) {
            ("--part", _) => self.part = above_zero(value)?,
            ("--passes", _) => self.passes = above_zero(value)?,
            ("--plot", What::Ours) => self.plot = Some(value.to_string()),
            ("--sheet", What::Ours | What::Against(..)) => self.sheet = Some(value.to_string()),
            ("--side", What::Ours | What::Against(..)) => self.side = Some(one_of(value, &SIDES)?),
            ("--lambda", What::Ours | What::Against(..)) => {
                self.lambda = Some(one_of(value, &LAMBDAS)?);
            }
            _ => return None,
        }
        Some(())
    }

    pub fn sheets(&self) -> impl Iterator<Item = Sheet> + '_ {
        let asked = |sheet: &Sheet| self.sheet.as_ref().is_none_or(|name| name == sheet.name);
        sheets().into_iter().filter(asked)
    }

    pub fn sides(&self) -> impl Iterator<Item = usize> + '_ {
        SIDES
            .into_iter()
            .filter(|side| self.side.is_none_or(|only| only == *side))
    }

    pub fn lambdas(&self) -> impl Iterator<Item = f32> + '_ {
        LAMBDAS
            .into_iter()
            .filter(|lambda| self.lambda.is_none_or(|only| only == *lambda))
    }
}

fn above_zero(value: &str) -> Option<usize> {
    value.parse().ok().filter(|&value| value > 0)
}

fn one_of<T: FromStr + PartialEq>(value: &str, all: &[T]) -> Option<T> {
    value.parse().ok().filter(|value| all.contains(value))
}
