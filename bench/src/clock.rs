//! The thread's own processor time. The contenders have one thread and read and write nothing outside of memory, so on an idle machine it
//! is the time that passes; on a shared one it leaves out what other programs take.

/// As 64-bit Linux has it.
#[repr(C)]
struct Timespec {
    seconds: i64,
    nanoseconds: i64,
}

/// Linux's CLOCK_THREAD_CPUTIME_ID.
const THREAD_TIME: i32 = 3;

extern "C" {
    fn clock_gettime(clock: i32, time: *mut Timespec) -> i32;
}

pub fn milliseconds() -> f64 {
    let mut time = Timespec {
        seconds: 0,
        nanoseconds: 0,
    };
    // Sound: the C library writes one time, to the place that is lent.
    let failed = unsafe { clock_gettime(THREAD_TIME, &mut time) };
    assert_eq!(failed, 0, "there is no clock of the thread");
    time.seconds as f64 * 1e3 + time.nanoseconds as f64 * 1e-6
}
