//! The floating environment of a call.
//!
//! What the archive's functions answer is proved of IEEE arithmetic in its default environment:
//! rounding to nearest, subnormal numbers kept, exceptions masked. The environment is the calling
//! thread's, though, and not every thread has that one: a C program linked with `-ffast-math`
//! takes subnormal numbers for 0, another may round upward. Then a search could find another
//! palette; and where exceptions are not masked, as after `feenableexcept`, its first inexact sum
//! would end the program. So each call runs in the default environment, and the caller's is put
//! back.

// The archive is x86-64 code and links into no other program. An error says so earlier than the
// linker would, and no archive for another machine can come to be called without this module.
#[cfg(not(target_arch = "x86_64"))]
compile_error!("palette-station is for x86-64 only, as the archive of the crate `station` is");

use core::arch::asm;

/// The register MXCSR in the default environment, with no exception noted yet. The archive has no
/// instructions of the older x87, so nothing else is to be set.
const DEFAULT: u32 = 0x1f80;

/// The caller's environment, put back when this is dropped: also if the call unwinds.
struct Caller(u32);

impl Drop for Caller {
    fn drop(&mut self) {
        set(self.0);
    }
}

/// Makes the call in the default environment. The exceptions that it notes are not the caller's.
///
/// Rust takes the default environment for granted and may move float arithmetic across `set`, so
/// the call has to leave all of it to functions that the compiler cannot see into.
pub(crate) fn in_default<T>(call: impl FnOnce() -> T) -> T {
    let _caller = Caller(get());
    set(DEFAULT);
    call()
}

// No `nomem` or `pure` in either: the compiler then has to take them for reads and writes of any
// memory, as it does a call of the archive, and keeps the order of the two.

fn get() -> u32 {
    let mut register = 0;
    // SAFETY: the instruction writes four bytes, those of `register`.
    unsafe { asm!("stmxcsr [{}]", in(reg) &raw mut register, options(nostack)) };
    register
}

fn set(register: u32) {
    // SAFETY: the instruction reads four bytes, those of `register`. They are `DEFAULT` or what
    // `get` gave, so no reserved bit is set. `DEFAULT` is the state that Rust counts on; any other
    // is the caller's own, in which it made the call.
    unsafe { asm!("ldmxcsr [{}]", in(reg) &raw const register, options(nostack)) };
}

#[cfg(test)]
mod tests;
