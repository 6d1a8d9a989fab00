//! The default environment inside, the caller's afterwards.

use super::{get, in_default, set, DEFAULT};
use std::panic::{catch_unwind, resume_unwind};

/// Exceptions unmasked and some noted, rounding upward, subnormal numbers taken for 0.
const OTHER: u32 = 0xc065;

/// The register within a call from this environment, and after it.
fn around(caller: u32, call: impl FnOnce() -> u32) -> (u32, u32) {
    let before = get();
    set(caller);
    let within = call();
    let after = get();
    set(before);
    (within, after)
}

#[test]
fn default_within_and_the_callers_after() {
    for caller in [DEFAULT, OTHER] {
        assert_eq!(around(caller, || in_default(get)), (DEFAULT, caller));
    }
}

#[test]
fn the_callers_also_after_unwinding() {
    let unwinding = || {
        let call = || in_default(|| resume_unwind(Box::new(get())));
        let carried: Result<u32, _> = catch_unwind(call);
        *carried.unwrap_err().downcast().expect("the register")
    };
    assert_eq!(around(OTHER, unwinding), (DEFAULT, OTHER));
}
