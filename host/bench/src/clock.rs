//! The processor time of this thread. Other programs on the machine do not lengthen it, as they do the time on
//! the wall.

#[repr(C)]
struct Timespec {
    seconds: i64,
    nanoseconds: i64,
}

extern "C" {
    /// POSIX, from the C library that Rust's own links.
    fn clock_gettime(clock: i32, time: *mut Timespec) -> i32;
}

/// Linux's number for it.
const CLOCK_THREAD_CPUTIME_ID: i32 = 3;

pub fn nanoseconds() -> u64 {
    let mut time = Timespec { seconds: 0, nanoseconds: 0 };
    // it writes the one Timespec that it is lent
    let said = unsafe { clock_gettime(CLOCK_THREAD_CPUTIME_ID, &mut time) };
    assert_eq!(said, 0, "the thread has a clock");
    time.seconds as u64 * 1_000_000_000 + time.nanoseconds as u64
}
