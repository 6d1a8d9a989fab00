//! The listing program, run anew on each text. Document 01 says nothing of its status, so only a
//! signal that ends it is a difference.

use crate::drive::{drive, Run};
use crate::program;
use palette_oracle::generate::texts::text;
use palette_oracle::listing_text::answer;
use std::iter;

pub fn compare(run: Run) -> Result<bool, String> {
    let program = program::find("list", "LIST_PROGRAM")?;
    drive(run, |index, tally| {
        let (text, kind) = text(run.seed, index);
        let expected = answer(&text);
        let ran = program::run(&program, iter::once(&text[..]), |_| {})
            .map_err(|e| format!("text {index}: {e}"))?;
        let ended = ran.status.code().is_some();
        tally.kind("text", kind.name());
        tally.kind("answer", class(&expected));
        tally.case(index, &[("text", ran.printed == expected), ("end", ended)]);
        Ok(())
    })
}

/// The number of a refusal, or `listed`.
fn class(answer: &[u8]) -> String {
    let fields = String::from_utf8_lossy(answer);
    let fields: Vec<&str> = fields.split_whitespace().take(2).collect();
    match fields[..] {
        ["0", number] => format!("{number:>2}"),
        _ => "listed".to_string(),
    }
}
