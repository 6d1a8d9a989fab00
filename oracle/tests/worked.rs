//! Document 01's worked blocks.

use palette_oracle::worked::{checks, Check};

#[test]
fn all_worked_blocks_hold() {
    let checks = checks();
    assert_eq!(checks.len(), 31);
    let wrong: Vec<String> = checks
        .iter()
        .filter(|c| !c.ok())
        .map(Check::to_string)
        .collect();
    assert!(wrong.is_empty(), "{}", wrong.join("\n"));
}
