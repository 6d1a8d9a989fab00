//! `sheet`: palettes and call lists for a whole scanned sheet. `sheet --help` says how.

mod costs;
mod drawing;
mod lettering;
mod options;
mod pgm;
mod picture;
mod progress;
mod summary;
mod whole;

use options::{Options, Request};
use palette_station::sheet::{Form, Searched, Settings};
use palette_station::Costs;
use pgm::Scan;
use progress::Progress;
use std::env;
use std::fs::File;
use std::io::{self, BufReader, BufWriter, Write};
use std::process::ExitCode;
use std::time::{Duration, Instant};
use summary::Run;
use whole::Staged;

fn main() -> ExitCode {
    match run() {
        Ok(()) => ExitCode::SUCCESS,
        Err(message) => {
            // Where even this cannot be written, the status still says it.
            let _ = writeln!(io::stderr(), "sheet: {}", one_line(&message));
            ExitCode::FAILURE
        }
    }
}

fn run() -> Result<(), String> {
    match options::parse(env::args_os().skip(1))? {
        Request::Help => io::stdout()
            .write_all(options::HELP.as_bytes())
            .map_err(cannot_print),
        Request::Run(options) => work(&options),
    }
}

fn work(options: &Options) -> Result<(), String> {
    let start = Instant::now();
    for path in options.files() {
        whole::probe(path)?;
    }
    let costs = match &options.costs {
        Some(path) => costs::read(path)?,
        None => Costs::default(),
    };
    let scan = scan(options)?;
    let (searched, search) = search(options, costs, &scan)?;
    // All files are whole and all is printed before the first file takes its place.
    let files = stage(options, &scan, &searched)?;
    let run = Run {
        searched: &searched,
        reported: options.report.is_some(),
        search,
        start,
    };
    let printed = if options.prints_lists() {
        print_lists(&searched.form).and_then(|()| run.write(&mut io::stderr().lock()))
    } else {
        run.write(&mut io::stdout().lock())
    };
    printed.map_err(cannot_print)?;
    whole::commit(files)
}

fn scan(options: &Options) -> Result<Scan, String> {
    match options.input.as_deref() {
        None => drawing::sample().map_err(|e| e.to_string()),
        Some(path) if options::is_dash(path) => {
            pgm::read(&mut io::stdin().lock()).map_err(|e| format!("standard input: {e}"))
        }
        Some(path) => File::open(path)
            .map_err(|e| e.to_string())
            .and_then(|file| pgm::read(&mut BufReader::new(file)))
            .map_err(|e| format!("{}: {e}", path.display())),
    }
}

/// What became of the sheet, and how long it took.
fn search(options: &Options, costs: Costs, scan: &Scan) -> Result<(Searched, Duration), String> {
    let default = Settings::of_depth(scan.sheet.bd());
    let settings = Settings {
        side: options.side,
        levels: options.levels,
        lambda: options.lambda.unwrap_or(default.lambda),
        costs,
    };
    let start = Instant::now();
    let progress = Progress::new();
    let searched = scan
        .sheet
        .search(&settings, options.threads, |done, rows| {
            progress.show(done, rows)
        })
        .map_err(|e| e.to_string())?;
    Ok((searched, start.elapsed()))
}

fn stage(options: &Options, scan: &Scan, searched: &Searched) -> Result<Vec<Staged>, String> {
    let form = &searched.form;
    let mut files = Vec::new();
    if let Some(path) = options.lists_file() {
        files.push(whole::stage(path, |out| form.write(out))?);
    }
    if let Some(path) = &options.picture {
        files.push(whole::stage(path, |out| picture::write(scan, form, out))?);
    }
    if let Some(path) = &options.report {
        files.push(whole::stage(path, |out| searched.report.write(out))?);
    }
    if let Some(path) = &options.sample {
        files.push(whole::stage(path, |out| pgm::write(scan, out))?);
    }
    Ok(files)
}

fn print_lists(form: &Form) -> io::Result<()> {
    let mut output = BufWriter::with_capacity(1 << 16, io::stdout().lock());
    form.write(&mut output)?;
    output.flush()
}

fn cannot_print(error: io::Error) -> String {
    format!("cannot print: {error}")
}

/// A file name may hold line ends; the message may not.
fn one_line(message: &str) -> String {
    message.replace(|c: char| c.is_control(), "?")
}
