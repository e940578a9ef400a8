//! The processor time of this thread.

#[repr(C)]
struct Timespec {
    seconds: i64,
    nanoseconds: i64,
}

unsafe extern "C" {
    fn clock_gettime(clock: i32, time: *mut Timespec) -> i32;
}

/// Linux's number for the processor time of the calling thread.
const THREAD_CPU_TIME: i32 = 3;

pub fn seconds() -> f64 {
    let mut time = Timespec {
        seconds: 0,
        nanoseconds: 0,
    };
    // Sound: the struct has the layout of C's timespec on 64-bit Linux.
    let status = unsafe { clock_gettime(THREAD_CPU_TIME, &mut time) };
    assert_eq!(status, 0, "the clock answers");
    time.seconds as f64 + time.nanoseconds as f64 * 1e-9
}
