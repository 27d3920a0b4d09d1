//! The time that this thread has been run, so that other work on the machine is not counted.

/// As the system's C library has it on Linux with 64 bits.
#[repr(C)]
struct Time {
    seconds: i64,
    nanoseconds: i64,
}

extern "C" {
    fn clock_gettime(clock: i32, time: *mut Time) -> i32;
}

const THREAD: i32 = 3;

/// In nanoseconds.
pub fn now() -> f64 {
    let mut time = Time { seconds: 0, nanoseconds: 0 };
    // The place that is written is this one.
    let failed = unsafe { clock_gettime(THREAD, &mut time) };
    assert_eq!(failed, 0, "no clock");
    time.seconds as f64 * 1e9 + time.nanoseconds as f64
}
