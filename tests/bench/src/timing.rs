//! How long calls take, in nanoseconds.

use std::time::{Duration, Instant};

const ENOUGH: Duration = Duration::from_millis(100);
const MOST_CALLS: usize = 200;
const FEWEST_CALLS: usize = 3;
/// A call that takes longer is made once.
const LONG: Duration = Duration::from_secs(1);

/// How the times are taken, in words.
pub const METHOD: &str =
    "Each call is made 3 to 200 times, for a tenth of a second or longer, and once where it takes over a second; the \
     shortest time counts.";

/// Prepares and calls again and again, and answers the time of each call.
pub fn times<T>(mut prepare: impl FnMut() -> T, mut call: impl FnMut(&mut T)) -> Vec<f64> {
    let started = Instant::now();
    let mut times = vec![];
    while times.len() < FEWEST_CALLS || (times.len() < MOST_CALLS && started.elapsed() < ENOUGH) {
        let mut prepared = prepare();
        let start = Instant::now();
        call(&mut prepared);
        times.push(start.elapsed().as_secs_f64() * 1e9);
        if start.elapsed() > LONG {
            break;
        }
    }
    times
}

/// The shortest time of a call.
pub fn shortest<T>(prepare: impl FnMut() -> T, call: impl FnMut(&mut T)) -> f64 {
    times(prepare, call).into_iter().fold(f64::INFINITY, f64::min)
}
