//! `search` from other floating environments than the default one: through the package, which
//! sets its own, and straight on the archive's function, which does not.

use crate::drive::{drive, Run};
use palette_oracle::generate::searches::{search_request, SearchRequest};
use palette_station::{search, Block, Costs, Palette, Refusal};
use std::arch::asm;

/// The register MXCSR: rounding to nearest, subnormal numbers kept, exceptions masked.
const DEFAULT: u32 = 0x1f80;
/// Subnormal numbers are taken for 0, as operands and as results.
const FLUSHING: u32 = DEFAULT | 0x8040;
const UPWARD: u32 = DEFAULT | 0x4000;

/// Input below these, and not 0, may make subnormal numbers in the search's sums
/// (docs/DECISIONS.md).
const LEAST_SAMPLE: f32 = 1.0 / (1u64 << 63) as f32;
const LEAST_PRICE: f32 = 1.0 / (1u64 << 40) as f32;

/// A different answer is an error. On tiny input a direct call must give the same number, and
/// other answers are only counted.
pub fn compare(run: Run) -> Result<bool, String> {
    drive(run, |index, tally| {
        let (request, _) = search_request(run.seed, index);
        let due = direct(&request, DEFAULT);
        let flushed = direct(&request, FLUSHING);
        let (tiny, equal) = (is_tiny(&request), flushed == due);
        let verdict = if equal { "same" } else { "differs" };
        let input = if tiny { "tiny" } else { "ordinary" };
        tally.kind("direct", format!("{input} input, {verdict}"));
        let mut same = vec![
            ("direct, number", flushed.number == due.number),
            ("direct, answer", equal || tiny),
        ];
        if let Ok(costs) = Costs::from_slice(&request.costs) {
            let due = packaged(&request, &costs, DEFAULT);
            same.extend([
                ("flushing", packaged(&request, &costs, FLUSHING) == due),
                ("upward", packaged(&request, &costs, UPWARD) == due),
            ]);
        }
        tally.case(index, &same);
        Ok(())
    })
}

fn is_tiny(request: &SearchRequest) -> bool {
    let below = |least: f32| move |&x: &f32| x != 0.0 && x.abs() < least;
    let prices = request.costs.iter().chain([&request.lambda]);
    request.samples.iter().any(below(LEAST_SAMPLE)) || prices.into_iter().any(below(LEAST_PRICE))
}

/// What the call answers from this environment. Rust takes the default one for granted, so the
/// call must compute with no floats on this side.
fn under<T>(mode: u32, call: impl FnOnce() -> T) -> T {
    set(mode);
    let answer = call();
    set(DEFAULT);
    answer
}

fn set(register: u32) {
    // SAFETY: the instruction reads the four bytes of `register`, none of whose reserved bits is
    // set.
    unsafe { asm!("ldmxcsr [{}]", in(reg) &raw const register, options(nostack)) };
}

/// With the bits of head, map bits and estimate, which are to agree too.
fn packaged(
    request: &SearchRequest,
    costs: &Costs,
    mode: u32,
) -> Result<(Palette, [u32; 3]), Refusal> {
    let block = Block {
        samples: &request.samples,
        width: request.w,
        height: request.h,
        bd: request.bd,
    };
    let answer = under(mode, || search(&block, request.lambda, costs));
    answer.map(|palette| {
        let estimate = under(mode, || palette.estimate());
        let figures = [palette.head, palette.map_bits, estimate].map(f32::to_bits);
        (palette, figures)
    })
}

/// All that a direct call gives, with the whole rooms.
#[derive(PartialEq)]
struct Answer {
    number: u32,
    found: [u32; 10],
    bits: [u32; 2],
    map: Vec<u8>,
    flags: Vec<u8>,
}

extern "C" {
    fn palette_search(
        samples: *const f32,
        count: usize,
        width: usize,
        height: usize,
        bd: u32,
        lambda: f32,
        costs: *const f32,
        entries: usize,
        map: *mut u8,
        map_room: usize,
        flags: *mut u8,
        flag_room: usize,
        found: *mut [u32; 10],
        bits: *mut [f32; 2],
    ) -> u32;
}

fn direct(request: &SearchRequest, mode: u32) -> Answer {
    let (mut map, mut flags) = (vec![0; request.map_room], vec![0; request.flag_room]);
    let (mut found, mut bits) = ([0; 10], [0.0; 2]);
    // SAFETY: each pointer and length is of one vector, and the four mutable ones are apart.
    let number = under(mode, || unsafe {
        palette_search(
            request.samples.as_ptr(),
            request.samples.len(),
            request.w,
            request.h,
            request.bd,
            request.lambda,
            request.costs.as_ptr(),
            request.costs.len(),
            map.as_mut_ptr(),
            map.len(),
            flags.as_mut_ptr(),
            flags.len(),
            &mut found,
            &mut bits,
        )
    });
    Answer {
        number,
        found,
        bits: bits.map(f32::to_bits),
        map,
        flags,
    }
}
