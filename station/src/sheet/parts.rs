//! What a sheet's form holds of its blocks, packed: a large sheet has millions of them.

use super::Area;
use crate::strip::front;
use crate::Refusal;

/// What a sheet's form holds of one block.
///
/// ```
/// use palette_station::sheet::{Part, Settings, Sheet};
/// use palette_station::Refusal;
///
/// // Two colours, one level, 64 levels.
/// let sample = |cell: u16| [cell % 2 * 99, 240, cell % 64][usize::from(cell / 16 % 3)];
/// let sheet = Sheet::new(48, 4, 8, (0..192).map(sample).collect())?;
/// let settings = Settings { side: 16, ..Settings::of_depth(8) };
/// let form = sheet.search(&settings, 1, |_, _| {})?.form;
/// let parts: Vec<Part> = form.blocks().map(|(_, part)| part).collect();
/// assert!(matches!(parts[0], Part::List(words) if !words.is_empty()));
/// assert_eq!(parts[1], Part::OneLevel(240));
/// assert!(matches!(parts[2], Part::Samples(Refusal::MANY_LEVELS, samples) if samples.len() == 64));
/// # Ok::<(), Box<dyn std::error::Error>>(())
/// ```
#[derive(Clone, Copy, Debug, PartialEq, Eq)]
pub enum Part<'a> {
    /// The call list of the block's palette.
    List(&'a [u32]),
    /// The level of a block of one level (9).
    OneLevel(u16),
    /// The number (8 or 10) and the samples of any other block, row by row.
    Samples(Refusal, &'a [u16]),
}

#[derive(Clone, Copy, Debug)]
enum Kind {
    /// Calls are at most `MAX_WORDS`.
    List {
        calls: u16,
    },
    OneLevel(u16),
    Samples(Refusal),
}

/// The parts of blocks one after the other.
#[derive(Clone, Debug, Default)]
pub(super) struct Parts {
    kinds: Vec<Kind>,
    words: Vec<u32>,
    samples: Vec<u16>,
}

impl Parts {
    pub(super) fn push_list(&mut self, words: &[u32]) {
        self.words.extend_from_slice(words);
        let calls = words.len() as u16;
        self.kinds.push(Kind::List { calls });
    }

    pub(super) fn push_level(&mut self, level: u16) {
        self.kinds.push(Kind::OneLevel(level));
    }

    /// All rows of a block.
    pub(super) fn push_samples<R: AsRef<[u16]>>(
        &mut self,
        refusal: Refusal,
        rows: impl Iterator<Item = R>,
    ) {
        for row in rows {
            self.samples.extend_from_slice(row.as_ref());
        }
        self.kinds.push(Kind::Samples(refusal));
    }

    pub(super) fn append(&mut self, mut more: Parts) {
        self.kinds.append(&mut more.kinds);
        self.words.append(&mut more.words);
        self.samples.append(&mut more.samples);
    }

    /// The parts with their areas, given those in order.
    pub(super) fn placed(
        &self,
        areas: impl Iterator<Item = Area>,
    ) -> impl Iterator<Item = (Area, Part<'_>)> {
        let (mut words, mut samples) = (self.words.as_slice(), self.samples.as_slice());
        areas.zip(&self.kinds).map(move |(area, kind)| {
            let part = match *kind {
                Kind::List { calls } => Part::List(front(&mut words, usize::from(calls))),
                Kind::OneLevel(level) => Part::OneLevel(level),
                Kind::Samples(refusal) => Part::Samples(refusal, front(&mut samples, area.cells())),
            };
            (area, part)
        })
    }
}
