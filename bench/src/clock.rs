//! CPU time of this thread: what other programs do on the machine does not count.

use std::ffi::{c_int, c_long};

#[repr(C)]
struct Time {
    seconds: i64,
    nanoseconds: c_long,
}

extern "C" {
    fn clock_gettime(clock: c_int, time: *mut Time) -> c_int;
}

/// CLOCK_THREAD_CPUTIME_ID of Linux.
const THREAD_CPU_TIME: c_int = 3;

/// A run lasts at least so many seconds, by calls one after another, so that reading the clock does not weigh.
const SHORTEST_RUN: f64 = 0.001;

/// After a call that is not counted come so many runs.
const WARM_RUNS: u32 = 3;

/// The candidates take turns so many times, so that a slow hour of the machine does not meet one of them alone.
const TURNS: u32 = 5;

/// A candidate whose call takes more seconds has one turn: it waits for better hours by itself.
const LONG_CALL: f64 = 0.02;

/// Seconds for one call of each candidate: the least of all its runs.
pub fn least_seconds(candidates: usize, mut call: impl FnMut(usize)) -> Vec<f64> {
    let mut least = vec![f64::MAX; candidates];
    for turn in 0..TURNS {
        for (candidate, least) in least.iter_mut().enumerate() {
            if turn == 0 || *least < LONG_CALL {
                *least = least.min(least_of_a_turn(|| call(candidate)));
            }
        }
    }
    least
}

fn least_of_a_turn(mut call: impl FnMut()) -> f64 {
    let mut run = |calls: u32| {
        let begin = now();
        for _ in 0..calls {
            call();
        }
        (now() - begin) / f64::from(calls)
    };
    let warming = run(1).max(1e-9);
    let calls = (SHORTEST_RUN / warming).ceil() as u32;
    (0..WARM_RUNS).map(|_| run(calls)).fold(f64::MAX, f64::min)
}

/// Seconds of CPU time that this thread has had.
fn now() -> f64 {
    let mut time = Time { seconds: 0, nanoseconds: 0 };
    let status = unsafe { clock_gettime(THREAD_CPU_TIME, &mut time) };
    assert_eq!(status, 0, "the system has a clock of a thread's CPU time");
    time.seconds as f64 + time.nanoseconds as f64 * 1e-9
}
