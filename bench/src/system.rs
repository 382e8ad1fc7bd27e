//! What Rust's library doesn't have: the processor's time, as Linux has it on 64 bits.

use std::ffi::c_int;

const CLOCK_PROCESS_CPUTIME_ID: c_int = 2;
const RUSAGE_CHILDREN: c_int = -1;

/// `struct rusage`: seconds and microseconds of the user's time, then of the system's, and 14 more.
#[derive(Default)]
#[repr(C)]
struct Usage {
    times: [[i64; 2]; 2],
    others: [i64; 14],
}

extern "C" {
    /// The time is seconds and nanoseconds.
    fn clock_gettime(clock: c_int, time: *mut [i64; 2]) -> c_int;
    fn getrusage(who: c_int, usage: *mut Usage) -> c_int;
}

/// Seconds that the processor has worked for this program and the programs that it has waited for.
pub fn processor_time() -> f64 {
    own_time() + time_of_children()
}

/// To the nanosecond, where `getrusage` has microseconds: some searches take not even one.
fn own_time() -> f64 {
    let mut time = [0; 2];
    // SAFETY: two numbers of 64 bits are written.
    let failed = unsafe { clock_gettime(CLOCK_PROCESS_CPUTIME_ID, &mut time) };
    assert_eq!(failed, 0);
    let [s, ns] = time;
    s as f64 + ns as f64 / 1e9
}

fn time_of_children() -> f64 {
    let mut usage = Usage::default();
    // SAFETY: the struct has the length and layout that is written.
    assert_eq!(unsafe { getrusage(RUSAGE_CHILDREN, &mut usage) }, 0);
    let times = usage.times.iter();
    times.map(|[s, us]| *s as f64 + *us as f64 / 1e6).sum()
}
