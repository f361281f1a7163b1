//! A clock that is quick to read.

use crate::clock;

#[cfg(target_arch = "x86_64")]
pub fn now() -> u64 {
    use std::arch::x86_64::{_mm_lfence, _rdtsc};
    // SAFETY: both are there on every x86-64.
    unsafe {
        _mm_lfence();
        let ticks = _rdtsc();
        _mm_lfence();
        ticks
    }
}

#[cfg(not(target_arch = "x86_64"))]
pub fn now() -> u64 {
    clock::kernel()
}

/// Microseconds a tick, held against the kernel's clock for a tenth of a second.
pub fn microseconds_a_tick() -> f64 {
    let (kernel, ticks) = (clock::kernel(), now());
    while clock::kernel() - kernel < 100_000_000 {}
    let (kernel, ticks) = (clock::kernel() - kernel, now() - ticks);
    kernel as f64 / 1000.0 / ticks as f64
}
