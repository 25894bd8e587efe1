//! The least time of a call. Other work runs on the machine, so all sides are timed in turn, in batches that are short beside
//! a time slice, and the best batch of many counts.

use std::{
    ffi::{c_int, c_long},
    hint::black_box,
    time::{Duration, Instant},
};

/// A batch lasts about so many nanoseconds.
const BATCH: f64 = 20_000.0;

#[repr(C)]
struct TimeSpec {
    seconds: i64,
    nanoseconds: c_long,
}

extern "C" {
    fn clock_gettime(clock: c_int, time: *mut TimeSpec) -> c_int;
}

/// The processor time of this thread: what other work takes is not in it. Asking for it is a system call, so short calls are
/// timed by the wall clock.
pub fn processor_time() -> Duration {
    const CLOCK_THREAD_CPUTIME_ID: c_int = 3;
    let mut time = TimeSpec { seconds: 0, nanoseconds: 0 };
    let ended = unsafe { clock_gettime(CLOCK_THREAD_CPUTIME_ID, &mut time) };
    assert_eq!(ended, 0, "the thread's clock");
    Duration::new(time.seconds as u64, time.nanoseconds as u32)
}

fn nanoseconds(call: &mut dyn FnMut(), times: usize) -> f64 {
    let began = Instant::now();
    for _ in 0..times {
        black_box(&mut *call)();
    }
    began.elapsed().as_nanos() as f64 / times as f64
}

/// Calls in a batch: from the second call's time, since the first one warms the caches.
fn batch(call: &mut dyn FnMut()) -> usize {
    call();
    let once = nanoseconds(call, 1).max(1.0);
    (BATCH / once).clamp(1.0, 2000.0) as usize
}

/// The best nanoseconds of one call of each side, all in turn until the budget of processor time is spent.
pub fn best<const N: usize>(budget: Duration, mut sides: [&mut dyn FnMut(); N]) -> [f64; N] {
    let mut batches = [0; N];
    (0..N).for_each(|k| batches[k] = batch(sides[k]));
    let mut best = [f64::MAX; N];
    let until = processor_time() + budget;
    loop {
        for k in 0..N {
            best[k] = best[k].min(nanoseconds(sides[k], batches[k]));
        }
        if processor_time() >= until {
            return best;
        }
    }
}
