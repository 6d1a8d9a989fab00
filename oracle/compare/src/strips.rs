//! `palette_strip`, number by number, cell by cell and bit by bit, with what it must leave alone;
//! and beside it `palette_search`, once for each block with its part of the buffers.

use crate::buffer::same_bits;
use crate::drive::{drive, Run};
use crate::tally::Tally;
use palette_compare::clock::Clock;
use palette_compare::due::Same;
use palette_oracle::generate::strips::{
    damaged_strip, full_strip, strip, StripKinds, StripRequest,
};
use palette_oracle::strips::{parts, strip_answer, Part, StripAnswer, FIELDS, MOST_BLOCKS};
use std::time::Duration;

/// Places behind the rooms.
const BEHIND: usize = 70;

/// What the answers hold before a call; none of them is due.
const FIELD: u32 = 0xeeee_eeee;
const FIGURE: f32 = f32::MAX;

/// Strips of 1 to 64 blocks, some of them damaged.
pub fn compare_any(run: Run) -> Result<bool, String> {
    compare(run, strip)
}

/// Strips of 64 small blocks.
pub fn compare_full(run: Run) -> Result<bool, String> {
    compare(run, full_strip)
}

/// Strips with one damage or two.
pub fn compare_damaged(run: Run) -> Result<bool, String> {
    compare(run, damaged_strip)
}

fn compare(run: Run, made: fn(u64, u64) -> (StripRequest, StripKinds)) -> Result<bool, String> {
    drive(run, |index, tally| {
        let (request, kinds) = made(run.seed, index);
        let due = strip_answer(&request);
        count_kinds(tally, &kinds);
        count_numbers(tally, &due);
        let separate_first = index % 2 == 1;
        let same = same_strip(&request, &due, separate_first, tally);
        tally.case(index, &same);
        Ok(())
    })
}

fn count_kinds(tally: &mut Tally, kinds: &StripKinds) {
    tally.kind("blocks", kinds.length.name());
    tally.kind("sizes", kinds.sizes.name());
    if let Some(shared) = kinds.shared {
        tally.kind("lambda", shared.lambda.name());
        tally.kind("costs", shared.costs.name());
    }
    for damage in &kinds.damages {
        tally.kind("damage", damage.name());
    }
}

/// The call's number, and those of its blocks: a strip with found and refused ones is `mixed`.
fn count_numbers(tally: &mut Tally, due: &StripAnswer) {
    tally.kind("number", format!("{:2}", due.number));
    for block in &due.blocks {
        tally.kind("block", format!("{:2}", block.number));
        if block.number == 0 {
            tally.kind("transposed", block.fields[9]);
        }
    }
    let found = due.blocks.iter().filter(|block| block.number == 0).count();
    if 0 < found && found < due.blocks.len() {
        tally.kind("strip", "mixed");
    }
}

/// All that a call hands over and changes.
struct Buffers {
    map: Vec<u8>,
    flags: Vec<u8>,
    fields: [u32; MOST_BLOCKS * FIELDS],
    /// Head and map bits of each.
    splits: [f32; 2 * MOST_BLOCKS],
}

impl Buffers {
    /// Each place holds a number that hangs on the place, and that is no index and no flag.
    fn new(request: &StripRequest) -> Self {
        let filled = |room: usize| {
            (0..room + BEHIND)
                .map(|at| 130 + (at % 113) as u8)
                .collect()
        };
        Buffers {
            map: filled(request.map_room),
            flags: filled(request.flag_room),
            fields: [FIELD; MOST_BLOCKS * FIELDS],
            splits: [FIGURE; 2 * MOST_BLOCKS],
        }
    }

    /// As they are due after the call.
    fn due(request: &StripRequest, answer: &StripAnswer) -> Self {
        let mut due = Buffers::new(request);
        answer.write(request, &mut due.map, &mut due.flags);
        (due.fields, due.splits) = (answer.fields(), answer.splits());
        due
    }

    /// What our own `palette_estimate` makes of head and map bits.
    fn estimates(&self) -> Vec<f32> {
        // SAFETY: it takes and gives numbers alone.
        let estimate = |split: &[f32]| unsafe { palette_estimate(split[0], split[1]) };
        self.splits.chunks_exact(2).map(estimate).collect()
    }

    fn same(&self, due: &Buffers) -> bool {
        self.map == due.map
            && self.flags == due.flags
            && self.fields == due.fields
            && same_floats(&self.splits, &due.splits)
    }
}

fn same_floats(ours: &[f32], due: &[f32]) -> bool {
    same_bits(ours, due, f32::to_bits)
}

/// Separate calls come first in every second case, as what comes first finds nothing in the cache.
fn same_strip(
    request: &StripRequest,
    answer: &StripAnswer,
    separate_first: bool,
    tally: &mut Tally,
) -> Vec<Same> {
    let due = Buffers::due(request, answer);
    let mut ours = Buffers::new(request);
    let lent = request.clone();
    let separate = || (answer.number == 0).then(|| call_separately(request));
    let before = separate_first.then(separate);
    let (number, time) = call_strip(&lent, &mut ours);
    let mut same = vec![
        ("number", number == answer.number),
        ("answers", ours.fields == due.fields),
        ("head and map bits", same_floats(&ours.splits, &due.splits)),
        (
            "estimates",
            same_floats(&ours.estimates(), &answer.estimates()),
        ),
        ("map's buffer", ours.map == due.map),
        ("flags' buffer", ours.flags == due.flags),
        ("what was lent", same_request(&lent, request)),
    ];
    if let Some((separate, beside)) = before.unwrap_or_else(separate) {
        same.push(("separate calls", separate.same(&ours)));
        tally.time_beside("separate calls'", time, beside);
    }
    same
}

/// Sides, samples and costs as they were.
fn same_request(after: &StripRequest, before: &StripRequest) -> bool {
    after.sides == before.sides
        && same_floats(&after.samples, &before.samples)
        && same_floats(&after.costs, &before.costs)
}

extern "C" {
    fn palette_strip(
        sides: *const usize,
        side_count: usize,
        samples: *const f32,
        sample_count: usize,
        bd: u32,
        lambda: f32,
        costs: *const f32,
        entries: usize,
        map: *mut u8,
        map_room: usize,
        flags: *mut u8,
        flag_room: usize,
        answers: *mut [u32; MOST_BLOCKS * FIELDS],
        bits: *mut [f32; 2 * MOST_BLOCKS],
    ) -> u32;

    fn palette_search(
        samples: *const f32,
        count: usize,
        width: usize,
        height: usize,
        bd: u32,
        lambda: f32,
        costs: *const f32,
        entries: usize,
        map: *mut u8,
        map_room: usize,
        flags: *mut u8,
        flag_room: usize,
        found: *mut [u32; 10],
        bits: *mut [f32; 2],
    ) -> u32;

    fn palette_estimate(head: f32, map: f32) -> f32;
}

fn call_strip(request: &StripRequest, buffers: &mut Buffers) -> (u32, Duration) {
    let map = &mut buffers.map[..request.map_room];
    let flags = &mut buffers.flags[..request.flag_room];
    let start = Clock::start();
    // SAFETY: each pointer and length is of one slice, and the four mutable ones are apart.
    let number = unsafe {
        palette_strip(
            request.sides.as_ptr(),
            request.sides.len(),
            request.samples.as_ptr(),
            request.samples.len(),
            request.bd,
            request.lambda,
            request.costs.as_ptr(),
            request.costs.len(),
            map.as_mut_ptr(),
            map.len(),
            flags.as_mut_ptr(),
            flags.len(),
            &mut buffers.fields,
            &mut buffers.splits,
        )
    };
    (number, start.elapsed())
}

/// What our own `palette_search` answers and writes for each block, and its time for all of them.
fn call_separately(request: &StripRequest) -> (Buffers, Duration) {
    let mut buffers = Buffers::new(request);
    buffers.fields = [0; MOST_BLOCKS * FIELDS];
    buffers.splits = [0.0; 2 * MOST_BLOCKS];
    let parts = parts(request);
    let start = Clock::start();
    for (block, part) in parts.iter().enumerate() {
        call_block(request, block, part, &mut buffers);
    }
    let time = start.elapsed();
    (buffers, time)
}

fn call_block(request: &StripRequest, block: usize, part: &Part, buffers: &mut Buffers) {
    let cells = part.w * part.h;
    let samples = &request.samples[part.cells..][..cells];
    let map = &mut buffers.map[part.cells..][..cells];
    let flags = &mut buffers.flags[part.flags..][..part.w.max(part.h)];
    let split = &mut buffers.splits[2 * block..][..2];
    let split: &mut [f32; 2] = split.try_into().expect("two places");
    let mut found = [FIELD; 10];
    // SAFETY: each pointer and length is of one slice, and the four mutable ones are apart.
    let number = unsafe {
        palette_search(
            samples.as_ptr(),
            samples.len(),
            part.w,
            part.h,
            request.bd,
            request.lambda,
            request.costs.as_ptr(),
            request.costs.len(),
            map.as_mut_ptr(),
            map.len(),
            flags.as_mut_ptr(),
            flags.len(),
            &mut found,
            split,
        )
    };
    let fields = &mut buffers.fields[FIELDS * block..][..FIELDS];
    fields[0] = number;
    fields[1..].copy_from_slice(&found);
}
