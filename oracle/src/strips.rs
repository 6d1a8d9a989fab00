//! What a whole strip must answer, worked out from document 02's L6 and not from our crates: the
//! numbers of the whole call from the lists alone, then block after block by the original.

use crate::answers::{asked_answer, SearchAnswer};
use crate::check::{sides_fit, Asked};
use crate::generate::strips::StripRequest;

/// What a call may have of blocks, and what it always has of answers.
pub const MOST_BLOCKS: usize = 64;
/// Number, n, eight colours and orientation.
pub const FIELDS: usize = 11;

/// An answer for each block; none where the whole call is refused.
#[derive(Clone, Debug, PartialEq)]
pub struct StripAnswer {
    pub number: u32,
    pub blocks: Vec<SearchAnswer>,
}

/// A block's sides, and where its places begin in samples and map and in flags.
#[derive(Clone, Copy, Debug, PartialEq)]
pub struct Part {
    pub w: usize,
    pub h: usize,
    pub cells: usize,
    pub flags: usize,
}

/// The blocks' parts. Each begins where the one before it ends: width × height cells and as many
/// flags as its longer side further on.
pub fn parts(request: &StripRequest) -> Vec<Part> {
    let (mut cells, mut flags) = (0, 0);
    let part = |(w, h): (usize, usize)| {
        let part = Part { w, h, cells, flags };
        cells += w * h;
        flags += w.max(h);
        part
    };
    request.pairs().map(part).collect()
}

/// The number of the whole call, 0 if its blocks are searched: 19, 1, 3 and 7 in this order.
pub fn strip_number(request: &StripRequest) -> u32 {
    let (pairs, half) = (request.sides.len() / 2, request.sides.len() % 2);
    if half != 0 || !(1..=MOST_BLOCKS).contains(&pairs) {
        return 19;
    }
    if !request.pairs().all(|(w, h)| sides_fit(w, h)) {
        return 1;
    }
    let cells: usize = request.pairs().map(|(w, h)| w * h).sum();
    let flags: usize = request.pairs().map(|(w, h)| w.max(h)).sum();
    if request.samples.len() != cells {
        3
    } else if request.map_room < cells || request.flag_room < flags {
        7
    } else {
        0
    }
}

pub fn strip_answer(request: &StripRequest) -> StripAnswer {
    let number = strip_number(request);
    let blocks = match number {
        0 => parts(request)
            .iter()
            .map(|part| asked_answer(&asked(request, part)))
            .collect(),
        _ => vec![],
    };
    StripAnswer { number, blocks }
}

/// What a separate call would be asked: the block's samples, and rooms for it alone.
pub fn asked<'a>(request: &'a StripRequest, part: &Part) -> Asked<'a> {
    let Part { w, h, cells, .. } = *part;
    Asked {
        w,
        h,
        bd: request.bd,
        lambda: request.lambda,
        costs: &request.costs,
        samples: &request.samples[cells..cells + w * h],
        map_room: w * h,
        flag_room: w.max(h),
    }
}

impl StripAnswer {
    /// The fields of all 64 answers; those past the count are 0.
    pub fn fields(&self) -> [u32; MOST_BLOCKS * FIELDS] {
        let mut all = [0; MOST_BLOCKS * FIELDS];
        for (fields, block) in all.chunks_exact_mut(FIELDS).zip(&self.blocks) {
            fields[0] = block.number;
            fields[1..].copy_from_slice(&block.fields);
        }
        all
    }

    /// All 64 estimates; those past the count are 0.
    pub fn estimates(&self) -> [f32; MOST_BLOCKS] {
        let mut all = [0.0; MOST_BLOCKS];
        for (bits, block) in all.iter_mut().zip(&self.blocks) {
            *bits = block.bits;
        }
        all
    }

    /// Head and map bits of all 64; those past the count are 0.
    pub fn splits(&self) -> [f32; 2 * MOST_BLOCKS] {
        let mut all = [0.0; 2 * MOST_BLOCKS];
        for (pair, block) in all.chunks_exact_mut(2).zip(&self.blocks) {
            pair.copy_from_slice(&[block.split.head, block.split.map_bits]);
        }
        all
    }

    /// Writes what is due into buffers as they were before the call: the cells and flags of each
    /// found block from the front of its part, and nothing else.
    pub fn write(&self, request: &StripRequest, map: &mut [u8], flags: &mut [u8]) {
        if self.number != 0 {
            return;
        }
        for (part, block) in parts(request).iter().zip(&self.blocks) {
            map[part.cells..][..block.map.len()].copy_from_slice(&block.map);
            flags[part.flags..][..block.flags.len()].copy_from_slice(&block.flags);
        }
    }
}
