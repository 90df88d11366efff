//! Processor time, to which other work on the machine adds nothing but what it does to the caches.

use std::time::Duration;

/// Whose time it is: this process's own, or that of its children that have ended.
#[derive(Clone, Copy)]
pub enum Whose {
    Own = 0,
    Children = -1,
}

/// Two times of seconds and microseconds, for the user and for the system, and 14 numbers.
type Usage = [i64; 18];

extern "C" {
    fn getrusage(who: i32, usage: *mut Usage) -> i32;
}

pub fn processor_time(whose: Whose) -> Duration {
    let mut usage: Usage = [0; 18];
    // SAFETY: on 64-bit Linux a rusage is 18 numbers of 64 bits, and the call writes no more.
    let status = unsafe { getrusage(whose as i32, &mut usage) };
    assert_eq!(status, 0, "getrusage takes either number");
    let micros = 1_000_000 * (usage[0] + usage[2]) + usage[1] + usage[3];
    Duration::from_micros(micros as u64)
}
