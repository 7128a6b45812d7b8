//! The processor time of the calling thread: what else runs on the machine is not in it, as it is in a wall clock's.

/// C's `struct timespec` on Linux with 64 bits.
#[repr(C)]
struct Timespec {
    seconds: i64,
    nanoseconds: i64,
}

/// Linux's CLOCK_THREAD_CPUTIME_ID, the same number on every processor.
const THREAD_PROCESSOR_TIME: i32 = 3;

extern "C" {
    fn clock_gettime(clock: i32, time: *mut Timespec) -> i32;
}

pub fn nanoseconds() -> u64 {
    let mut time = Timespec { seconds: 0, nanoseconds: 0 };
    // SAFETY: the pointer is to a timespec that lives through the call, and nothing else of the call is unsafe.
    let status = unsafe { clock_gettime(THREAD_PROCESSOR_TIME, &mut time) };
    assert_eq!(status, 0, "Linux has a clock of the thread's processor time");
    time.seconds as u64 * 1_000_000_000 + time.nanoseconds as u64
}
