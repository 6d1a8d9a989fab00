//! The report program on texts of as many palettes as it takes, and more: time and memory.

use crate::program;
use crate::reports::{NAME, VARIABLE};
use palette_oracle::generate::reports::{greatest_text, small_text};
use palette_oracle::report_text::{page, read, report, Measures, MOST};
use std::fs;
use std::path::Path;
use std::sync::atomic::{AtomicU64, Ordering};
use std::time::Instant;

/// What may follow the last palette.
const BYTES: &[u8] = b"\n x\0\xff";

/// So many different palettes of the greatest length take turns, each equally often: the fraction
/// has a large divisor to lose.
const DIFFERENT: usize = 9;

/// The memory is looked at each time that so many palettes are written.
const LOOKS: u64 = 100;

const REFUSED_HEADER: &[u8] = b"       4       2       2       7       0       0\n";

/// A text in pieces, and the page that is due.
struct Long<'a> {
    name: String,
    pieces: Vec<&'a [u8]>,
    page: Vec<u8>,
}

/// Whether all pages are the same.
pub fn compare(seed: u64) -> Result<bool, String> {
    let program = program::find(NAME, VARIABLE)?;
    println!("long-reports, seed {seed}");
    println!("{:>12}{:>10}{:>12}", "bytes", "seconds", "peak KiB");
    let small: Vec<Vec<u8>> = (0..=MOST as u64).map(|i| small_text(seed, i)).collect();
    let greatest: Vec<Vec<u8>> = (0..DIFFERENT as u64)
        .map(|i| greatest_text(seed, i))
        .collect();
    let mut all_same = true;
    for long in small_ones(&small).iter().chain([&great_one(&greatest)]) {
        all_same &= same(&program, long).map_err(|e| format!("{}: {e}", long.name))?;
    }
    Ok(all_same)
}

/// As many as are read, with nothing or something behind, and the last one unsound.
fn small_ones(small: &[Vec<u8>]) -> Vec<Long<'_>> {
    let most = || small[..MOST].iter().map(Vec::as_slice);
    let before = || most().take(MOST - 1);
    let cut = &small[MOST - 1][..small[MOST - 1].len() - 1];
    let mut longs = vec![
        long("9,999 palettes", most().collect()),
        long("10,000 palettes", small.iter().map(Vec::as_slice).collect()),
        long("the 9,999th cut off", before().chain([cut]).collect()),
        long(
            "the 9,999th with a refused header and text behind",
            before().chain([REFUSED_HEADER, b"x"]).collect(),
        ),
    ];
    for byte in BYTES.chunks(1) {
        let name = format!("9,999 palettes and byte {}", byte[0]);
        longs.push(long(&name, most().chain([byte]).collect()));
    }
    longs
}

fn long<'a>(name: &str, pieces: Vec<&'a [u8]>) -> Long<'a> {
    Long {
        name: name.to_string(),
        page: report(&pieces.concat()),
        pieces,
    }
}

/// The whole text is never in memory: its page is put together from those of its palettes.
fn great_one(greatest: &[Vec<u8>]) -> Long<'_> {
    let measures: Vec<Measures> = greatest.iter().flat_map(|text| read(text).blocks).collect();
    let blocks: Vec<Measures> = measures.iter().copied().cycle().take(MOST).collect();
    Long {
        name: "9,999 palettes of the greatest length".to_string(),
        pieces: greatest
            .iter()
            .map(Vec::as_slice)
            .cycle()
            .take(MOST)
            .collect(),
        page: page(&blocks),
    }
}

/// Prints a line for a text, and whether the page is the one due and the status 0.
fn same(program: &Path, long: &Long) -> std::io::Result<bool> {
    let bytes: usize = long.pieces.iter().map(|piece| piece.len()).sum();
    let (written, peak) = (AtomicU64::new(0), AtomicU64::new(0));
    let watch = |id| {
        if written.fetch_add(1, Ordering::Relaxed) % LOOKS == 0 {
            peak.fetch_max(peak_memory(id).unwrap_or(0), Ordering::Relaxed);
        }
    };
    let start = Instant::now();
    let ran = program::run(program, long.pieces.iter().copied(), watch)?;
    let seconds = start.elapsed().as_secs_f64();
    let same = ran.printed == long.page && ran.status.code() == Some(0);
    let word = if same { "same" } else { "DIFFERS" };
    let peak = peak.into_inner();
    println!(
        "{bytes:>12}{seconds:>10.2}{peak:>12}  {word}: {}",
        long.name
    );
    Ok(same)
}

/// The most KiB of memory that a process has had at once (Linux); none if it has ended.
fn peak_memory(id: u32) -> Option<u64> {
    let status = fs::read_to_string(format!("/proc/{id}/status")).ok()?;
    let line = status.lines().find(|line| line.starts_with("VmHWM:"))?;
    line.split_whitespace().nth(1)?.parse().ok()
}
