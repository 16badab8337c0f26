//! Processor time of the calling thread, to which other work on the machine
//! adds nothing. The standard library has no such clock; Linux has.

use std::time::Duration;

#[repr(C)]
struct TimeValue {
    seconds: i64,
    nanoseconds: i64,
}

extern "C" {
    fn clock_gettime(clock: i32, time: *mut TimeValue) -> i32;
}

const THREAD_PROCESSOR_TIME: i32 = 3;

pub fn processor_time() -> Result<Duration, String> {
    let mut time = TimeValue {
        seconds: 0,
        nanoseconds: 0,
    };
    // SAFETY: the call writes one time value, which is lent to it.
    let answer = unsafe { clock_gettime(THREAD_PROCESSOR_TIME, &mut time) };
    if answer != 0 {
        return Err("the thread's processor time can't be read".into());
    }
    let seconds = Duration::from_secs(time.seconds.unsigned_abs());
    Ok(seconds + Duration::from_nanos(time.nanoseconds.unsigned_abs()))
}
