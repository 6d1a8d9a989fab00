//! What is printed at the end.

use palette_station::report::{Report, MAX_BLOCKS};
use palette_station::sheet::{Form, Levels, Part, Searched};
use palette_station::Refusal;
use std::io::{self, Write};
use std::time::{Duration, Instant};

/// What intake has for a sheet.
const SECONDS_ALLOWED: u32 = 4;

/// What the summary is of.
pub struct Run<'a> {
    pub searched: &'a Searched,
    /// Whether the block report is written.
    pub reported: bool,
    /// The time of search and listing.
    pub search: Duration,
    /// When the run began.
    pub start: Instant,
}

/// A block is blank, or drawn with a palette or without one.
#[derive(Default)]
struct Tally {
    blank: usize,
    with_palette: usize,
    small: usize,
    many_levels: usize,
    calls: u64,
}

impl Run<'_> {
    pub fn write(&self, output: &mut impl Write) -> io::Result<()> {
        let form = &self.searched.form;
        let tally = tally(form);
        write_settings(form, output)?;
        tally.write(form.settings().side, output)?;
        line(output, "raw width", raw_width(self.searched.raw_width))?;
        line(output, "estimated bits", estimated(self.searched))?;
        if self.reported && self.searched.report.blocks() > MAX_BLOCKS {
            line(output, "report", cut_off(&self.searched.report))?;
        }
        let (all, search) = (self.start.elapsed(), self.search);
        line(output, "seconds", seconds(all, search))?;
        line(output, "samples a second", speed(form, search))?;
        if tally.without() * 10 > tally.drawn() {
            line(output, "warning", warning(&tally))?;
        }
        output.flush()
    }
}

fn line(output: &mut impl Write, name: &str, value: String) -> io::Result<()> {
    writeln!(output, "{name:16}  {value}")
}

fn write_settings(form: &Form, output: &mut impl Write) -> io::Result<()> {
    let settings = form.settings();
    let (width, height, depth) = (form.width(), form.height(), form.bd());
    let sheet = format!("{width} by {height}, depth {depth}");
    line(output, "sheet", sheet)?;
    line(output, "levels", levels(settings.levels))?;
    line(output, "lambda", settings.lambda.to_string())
}

fn tally(form: &Form) -> Tally {
    let mut tally = Tally::default();
    for (_, part) in form.blocks() {
        match part {
            Part::List(words) => {
                tally.with_palette += 1;
                tally.calls += words.len() as u64;
            }
            Part::OneLevel(_) => tally.blank += 1,
            // A small block is not asked for its levels.
            Part::Samples(_, samples) if samples.iter().all(|v| v == &samples[0]) => {
                tally.blank += 1;
            }
            Part::Samples(Refusal::SMALL, _) => tally.small += 1,
            Part::Samples(..) => tally.many_levels += 1,
        }
    }
    tally
}

impl Tally {
    fn without(&self) -> usize {
        self.small + self.many_levels
    }

    fn drawn(&self) -> usize {
        self.with_palette + self.without()
    }

    fn write(&self, side: usize, output: &mut impl Write) -> io::Result<()> {
        let (all, drawn) = (self.blank + self.drawn(), self.drawn());
        let with = of(self.with_palette, drawn, "the drawn");
        let without = of(self.without(), drawn, "the drawn");
        line(output, "blocks", format!("{all} of side {side}"))?;
        line(output, "blank", of(self.blank, all, "all: one level"))?;
        line(output, "drawn", of(drawn, all, "all"))?;
        line(output, "with palette", with)?;
        line(output, "without palette", without)?;
        line(output, "calls", self.calls.to_string())
    }
}

fn of(count: usize, whole: usize, name: &str) -> String {
    let share = 100.0 * count as f64 / whole.max(1) as f64;
    format!("{count} ({share:.1} % of {name})")
}

fn levels(levels: Option<Levels>) -> String {
    match levels.map(Levels::count) {
        None => "as scanned".to_string(),
        Some(count) => format!("rounded to {count} greys, a step before the proved part"),
    }
}

fn raw_width(bits: u64) -> String {
    format!("{bits} bits that the coder writes as they are")
}

/// Without the factor 3 of an estimate.
fn estimated(searched: &Searched) -> String {
    let (head, map_bits) = (searched.head, searched.map_bits);
    format!("{head:.0} for colours, {map_bits:.0} for maps")
}

/// For a page that does not have all blocks.
fn cut_off(report: &Report) -> String {
    let found = report.blocks();
    format!("the first {MAX_BLOCKS} of {found} blocks with palette")
}

fn seconds(all: Duration, search: Duration) -> String {
    let (all, search) = (all.as_secs_f64(), search.as_secs_f64());
    format!("{all:.3} of {SECONDS_ALLOWED} allowed; search and listing {search:.3}")
}

fn speed(form: &Form, search: Duration) -> String {
    let samples = form.width() as f64 * form.height() as f64;
    format!("{:.0}", samples / search.as_secs_f64().max(1e-9))
}

fn warning(tally: &Tally) -> String {
    let mut reasons = Vec::new();
    if tally.many_levels > 0 {
        reasons.push(format!(
            "{} more than 32 levels: see --levels",
            tally.many_levels
        ));
    }
    if tally.small > 0 {
        reasons.push(format!("{} both sides below 16: see --side", tally.small));
    }
    format!(
        "{} of {} drawn blocks have no palette ({})",
        tally.without(),
        tally.drawn(),
        reasons.join("; ")
    )
}
