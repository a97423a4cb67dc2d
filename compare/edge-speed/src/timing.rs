//! How long something takes, in nanoseconds.

use std::hint::black_box;
use std::time::{Duration, Instant};

/// How long one measurement lasts at least: well below the time after which another program gets its
/// turn, so that the best of many is undisturbed.
const BATCH: Duration = Duration::from_millis(1);

/// Runs something a number of times and says how long that took.
pub type Timer<'a> = Box<dyn FnMut(u64) -> Duration + 'a>;

pub fn timer<'a>(mut run: impl FnMut() + 'a) -> Timer<'a> {
    Box::new(move |times| {
        let began = Instant::now();
        for _ in 0..times {
            run();
        }
        began.elapsed()
    })
}

/// A plain copy of as many bytes: the floor under what touches each of them.
pub fn copy_timer(bytes: &[u8]) -> Timer<'_> {
    let mut to = vec![0; bytes.len()];
    timer(move || copy(black_box(&mut to), black_box(bytes)))
}

#[inline(never)]
fn copy(to: &mut [u8], from: &[u8]) {
    to.copy_from_slice(from);
}

/// How often to run so that a measurement is long enough.
fn times(timer: &mut Timer) -> u64 {
    let mut times = 1;
    while timer(times) < BATCH {
        times *= 2;
    }
    times
}

/// The best time of each, measured in alternation, so that what else the machine does hits all alike.
pub fn best<const N: usize>(mut timers: [Timer; N], rounds: u64) -> [f64; N] {
    let times = timers.each_mut().map(times);
    let mut best = [f64::INFINITY; N];
    for _ in 0..rounds {
        for i in 0..N {
            let took = timers[i](times[i]).as_secs_f64() * 1e9 / times[i] as f64;
            best[i] = best[i].min(took);
        }
    }
    best
}
