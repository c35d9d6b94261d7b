//! Times of both sides, taken in turn, so that whatever else the machine does meets both.
use std::hint::black_box;
use std::time::{Duration, Instant};

/// How long one call takes, in nanoseconds.
#[derive(Clone, Copy)]
pub struct Times {
    pub proved: f64,
    pub fast: f64,
}

/// How long a case is repeated, and how many turns each side has at least.
const PATIENCE: Duration = Duration::from_secs(2);
const LEAST_TURNS: usize = 10;
/// How often a side is called in one turn. After its first call its own table and room are in the caches, not the other side's: two rooms for
/// 4,096 tokens have 2.4 to 8.9 MB.
const CALLS: usize = 8;
/// How often a case is run with cold caches.
const COLD_RUNS: usize = 41;
/// Bytes that are written between two calls with cold caches.
const SWEEP: usize = 64 << 20;

/// The time of one call.
fn time(work: &mut impl FnMut() -> u64) -> f64 {
    let began = Instant::now();
    black_box(work());
    began.elapsed().as_nanos() as f64
}

/// The least time of the calls of a turn.
fn turn(work: &mut impl FnMut() -> u64) -> f64 {
    (0..CALLS).map(|_| time(work)).fold(f64::MAX, f64::min)
}

/// The least times of many turns.
pub fn repeated(mut proved: impl FnMut() -> u64, mut fast: impl FnMut() -> u64) -> Times {
    let mut least = Times { proved: f64::MAX, fast: f64::MAX };
    let began = Instant::now();
    let mut turns = 0;
    while turns < LEAST_TURNS || began.elapsed() < PATIENCE {
        least.proved = least.proved.min(turn(&mut proved));
        least.fast = least.fast.min(turn(&mut fast));
        turns += 1;
    }
    least
}

/// The middle one of some times.
fn median(mut times: Vec<f64>) -> f64 {
    times.sort_by(f64::total_cmp);
    times[times.len() / 2]
}

/// The median times of calls before each of which much other memory is written, so that neither the table nor the code is in a cache.
pub fn cold(mut proved: impl FnMut() -> u64, mut fast: impl FnMut() -> u64) -> Times {
    let mut other = vec![0u8; SWEEP];
    let (mut mine, mut theirs) = (Vec::new(), Vec::new());
    for run in 0..COLD_RUNS {
        other.fill(run as u8);
        mine.push(time(&mut proved));
        black_box(&mut other).fill(run as u8 + 1);
        theirs.push(time(&mut fast));
    }
    Times { proved: median(mine), fast: median(theirs) }
}
