//! The time that this thread has run: what else runs on the machine is not in it.

/// `struct timespec` of C.
#[repr(C)]
#[derive(Default)]
struct Time {
    seconds: i64,
    nanoseconds: i64,
}

/// Linux's CLOCK_THREAD_CPUTIME_ID.
const THREAD: i32 = 3;

extern "C" {
    fn clock_gettime(clock: i32, time: *mut Time) -> i32;
}

pub fn nanoseconds() -> i64 {
    let mut time = Time::default();
    // SAFETY: the place is there to be written.
    let status = unsafe { clock_gettime(THREAD, &mut time) };
    assert_eq!(status, 0, "the clock can be read");
    1_000_000_000 * time.seconds + time.nanoseconds
}
