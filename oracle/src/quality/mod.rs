//! Document 02's L9: how far the original's groups of levels lie from the least possible sum. The
//! exact side is written from the document's words and not from the original.

pub mod check;
pub mod floats;
pub mod least;
pub mod run;
pub mod tally;
pub mod visited;
