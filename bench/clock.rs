//! Processor time: what else the machine runs meanwhile doesn't count. The standard library has
//! wall time only. Assumes 64-bit Linux.

#[repr(C)]
#[derive(Default)]
struct Moment {
    seconds: i64,
    nanoseconds: i64,
}

extern "C" {
    fn clock_gettime(clock: i32, moment: *mut Moment) -> i32;
}

/// The clock of the calling thread.
const CLOCK_THREAD_CPUTIME_ID: i32 = 3;

/// Nanoseconds of processor time that this thread has had.
pub fn processor_time() -> f64 {
    let mut moment = Moment::default();
    // SAFETY: the moment is there for the call to write.
    let failed = unsafe { clock_gettime(CLOCK_THREAD_CPUTIME_ID, &mut moment) };
    assert_eq!(failed, 0, "the thread has a clock");
    moment.seconds as f64 * 1e9 + moment.nanoseconds as f64
}
