//! The processor time of this thread, in seconds: what other programs on the
//! machine do meanwhile counts less than on the wall's clock. Linux has it, and
//! the port's library is for Linux alone.

#[repr(C)]
struct Timespec {
    seconds: i64,
    nanoseconds: i64,
}

const THREAD_CPU_TIME: i32 = 3;

extern "C" {
    fn clock_gettime(clock: i32, time: *mut Timespec) -> i32;
}

pub fn now() -> f64 {
    let mut time = Timespec { seconds: 0, nanoseconds: 0 };
    // Safety: the struct is the one that 64-bit Linux writes.
    let failed = unsafe { clock_gettime(THREAD_CPU_TIME, &mut time) };
    assert_eq!(failed, 0, "the clock can't be read");
    time.seconds as f64 + time.nanoseconds as f64 * 1e-9
}
