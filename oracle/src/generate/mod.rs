//! Cases over the whole domain of document 01. Case `index` of a seed is always the same, and
//! is drawn without the cases before it.

/// An enum of named kinds, so that a test can ask for each of them.
macro_rules! kinds {
    ($(#[$note:meta])* $name:ident { $($(#[$kind_note:meta])* $kind:ident = $text:literal),+ $(,)? }) => {
        $(#[$note])*
        #[derive(Clone, Copy, Debug, PartialEq, Eq)]
        pub enum $name { $($(#[$kind_note])* $kind),+ }

        impl $name {
            pub const ALL: &'static [$name] = &[$($name::$kind),+];

            pub fn name(self) -> &'static str {
                match self { $($name::$kind => $text),+ }
            }
        }
    };
}

pub mod adapted;
pub mod blocks;
pub mod caches;
pub mod close;
pub mod contexts;
pub mod costs;
pub mod crafted;
mod damages;
pub mod histograms;
pub mod lambdas;
pub mod layouts;
pub mod levels;
pub mod palettes;
pub mod random;
mod read_damages;
pub mod reads;
pub mod reports;
pub mod requests;
pub mod searches;
pub mod sheets;
pub mod sides;
pub mod strips;
pub mod sure;
pub mod texts;
