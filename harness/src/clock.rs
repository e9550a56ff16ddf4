//! Processor time, which other work on the machine does not add to.

#[repr(C)]
struct Time {
    seconds: i64,
    nanoseconds: i64,
}

/// The C library's number for the time that this process has had.
const PROCESS: i32 = 2;

unsafe extern "C" {
    fn clock_gettime(clock: i32, time: *mut Time) -> i32;
}

/// Seconds of processor time that this process has taken so far.
pub fn processor_seconds() -> f64 {
    let mut time = Time { seconds: 0, nanoseconds: 0 };
    // Safe: the time is the C library's struct on x86-64 Linux.
    let status = unsafe { clock_gettime(PROCESS, &mut time) };
    assert_eq!(status, 0, "the clock is there");
    time.seconds as f64 + time.nanoseconds as f64 * 1e-9
}
