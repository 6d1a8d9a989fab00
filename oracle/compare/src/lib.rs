//! What the drivers here and the package `bench` have in common.

pub mod clock;
pub mod due;
