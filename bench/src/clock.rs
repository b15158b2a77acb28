//! The time that this thread has run on its core. Time in which others had the core does not count, so
//! a measurement on a busy machine is not longer than it should be.

use std::ffi::c_long;

#[repr(C)]
struct Timespec {
    seconds: c_long,
    nanoseconds: c_long,
}

extern "C" {
    fn clock_gettime(clock: i32, time: *mut Timespec) -> i32;
    fn sched_getcpu() -> i32;
    fn sched_setaffinity(pid: i32, size: usize, mask: *const u64) -> i32;
}

/// CLOCK_THREAD_CPUTIME_ID of Linux.
const THREAD_TIME: i32 = 3;

fn now() -> f64 {
    let mut time = Timespec { seconds: 0, nanoseconds: 0 };
    // SAFETY: the C library's function writes the struct that it is lent.
    let said = unsafe { clock_gettime(THREAD_TIME, &mut time) };
    assert_eq!(said, 0, "this thread's clock");
    1e9 * time.seconds as f64 + time.nanoseconds as f64
}

pub struct Clock(f64);

impl Clock {
    pub fn start() -> Clock {
        Clock(now())
    }

    pub fn nanoseconds(&self) -> f64 {
        now() - self.0
    }
}

/// Keeps the process on the core where it is.
pub fn stay_on_one_core() {
    // SAFETY: both are the C library's; the mask is 16 words long and only read.
    let said = unsafe {
        let core = sched_getcpu().max(0) as usize;
        let mut mask = [0u64; 16];
        mask[core / 64 % 16] = 1 << (core % 64);
        sched_setaffinity(0, size_of_val(&mask), mask.as_ptr())
    };
    if said != 0 {
        eprintln!("the process could not be kept on one core");
    }
}
