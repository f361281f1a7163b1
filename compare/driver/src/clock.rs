//! The test clock. fire.rs asks `Instant::now()`, which asks `clock_gettime`; the one defined
//! here stands before the C library's. While a reading is set on a thread, every question on
//! that thread gets that reading; otherwise the kernel answers.

use std::{
    cell::Cell,
    ffi::{c_int, c_long},
    sync::OnceLock,
    time::Instant,
};

thread_local! {
    static READING: Cell<Option<u64>> = const { Cell::new(None) };
}

#[repr(C)]
pub struct Timespec {
    seconds: i64,
    nanoseconds: i64,
}

extern "C" {
    fn syscall(number: c_long, ...) -> c_long;
}

#[cfg(target_arch = "x86_64")]
const SYS_CLOCK_GETTIME: c_long = 228;
#[cfg(target_arch = "aarch64")]
const SYS_CLOCK_GETTIME: c_long = 113;

const CLOCK_MONOTONIC: c_int = 1;
const SECOND: u64 = 1_000_000_000;

/// # Safety
/// `out` is valid for writes, as the C library's own function demands.
#[no_mangle]
pub unsafe extern "C" fn clock_gettime(clock: c_int, out: *mut Timespec) -> c_int {
    if clock == CLOCK_MONOTONIC {
        if let Ok(Some(ns)) = READING.try_with(Cell::get) {
            *out = Timespec { seconds: (ns / SECOND) as i64, nanoseconds: (ns % SECOND) as i64 };
            return 0;
        }
    }
    syscall(SYS_CLOCK_GETTIME, clock, out) as c_int
}

// Not generic and not inlined, so that whoever uses the clock also links `clock_gettime`, which
// stands in the same object file.
#[inline(never)]
fn set(reading: Option<u64>) {
    READING.with(|r| r.set(reading));
}

/// Runs `f` with the clock standing at `ns` nanoseconds.
pub fn at<T>(ns: u64, f: impl FnOnce() -> T) -> T {
    struct Clear;
    impl Drop for Clear {
        fn drop(&mut self) {
            set(None);
        }
    }
    set(Some(ns));
    let _clear = Clear;
    f()
}

/// The instant that the clock shows at `ns`.
pub fn instant(ns: u64) -> Instant {
    at(ns, Instant::now)
}

/// The reading that gives this instant.
pub fn reading(instant_: Instant) -> u64 {
    static ORIGIN: OnceLock<Instant> = OnceLock::new();
    let origin = *ORIGIN.get_or_init(|| instant(0));
    instant_.duration_since(origin).as_nanos().try_into().expect("a reading of the test clock")
}

/// Nanoseconds by the kernel's clock, whatever reading is set.
pub fn kernel() -> u64 {
    let mut t = Timespec { seconds: 0, nanoseconds: 0 };
    // SAFETY: `t` is valid for writes.
    unsafe { syscall(SYS_CLOCK_GETTIME, CLOCK_MONOTONIC, &mut t as *mut Timespec) };
    t.seconds as u64 * SECOND + t.nanoseconds as u64
}

/// Panics unless `Instant::now()` follows the test clock.
pub fn check() {
    for ns in [0, 1, SECOND - 1, SECOND, 1 << 63, u64::MAX] {
        assert_eq!(reading(instant(ns)), ns, "clock_gettime was not replaced");
    }
}
