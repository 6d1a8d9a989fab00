//! A cost table from a file.

use palette_station::{Costs, COSTS};
use std::fs::File;
use std::io::{self, Read};
use std::path::Path;

/// Far more than 301 numbers take, and little enough to read before looking.
const MOST_BYTES: u64 = 1 << 20;
const MOST_COST: f32 = 32.0;

pub fn read(path: &Path) -> Result<Costs, String> {
    let table = text(path)
        .map_err(|e| e.to_string())
        .and_then(|text| table(&text));
    table.map_err(|e| format!("{}: {e}", path.display()))
}

fn text(path: &Path) -> io::Result<String> {
    let mut text = String::new();
    let mut file = File::open(path)?.take(MOST_BYTES);
    file.read_to_string(&mut text)?;
    // Nothing left of what may be read: there could be more behind it.
    if file.limit() == 0 {
        return Err(io::Error::other("too long for a cost table"));
    }
    Ok(text)
}

fn table(text: &str) -> Result<Costs, String> {
    let words: Vec<&str> = text.split_whitespace().collect();
    if words.len() != COSTS {
        return Err(format!("{} costs, not {COSTS}", words.len()));
    }
    let costs: Result<Vec<f32>, String> = words.into_iter().map(cost).collect();
    Costs::from_slice(&costs?).map_err(|e| e.to_string())
}

fn cost(word: &str) -> Result<f32, String> {
    match word.parse() {
        Ok(cost) if (0.0..=MOST_COST).contains(&cost) => Ok(cost),
        _ => Err(format!("cost {word} is not a number of 0 to {MOST_COST}")),
    }
}
