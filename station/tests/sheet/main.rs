//! The command `sheet`, and the library's sheets behind it.

mod blocks;
mod command;
#[path = "../common/mod.rs"]
mod common;
mod files;
mod form;
mod identity;
mod levels;
mod mutations;
mod options;
mod pictures;
mod report;
mod scans;
mod script;
mod shown;
mod summary;
mod threads;
