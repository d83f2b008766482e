//! The time of a call on small areas, which is hardly longer than a look at the clock.
//!
//! So a batch of calls is timed, each on areas of its own that are filled before the clock starts; the filling alone is
//! not timed. A batch fits the processor's nearest cache, and of thousands of batches the shortest counts.

use crate::reducing::{areas_of, Areas};
use crate::timing::shortest;
use std::time::{Duration, Instant};

/// The most calls and the most lent bytes of a batch; one call may be lent more.
const MOST_CALLS: usize = 64;
const MOST_BYTES: usize = 16_384;
/// How often the shortest batch of some hundreds is looked for, and after what time no more.
const ROUNDS: usize = 10;
const ENOUGH: Duration = Duration::from_millis(100);

/// Nanoseconds of one call on a text in an area of this size.
pub fn time(text: &[u8], area: usize, call: impl Fn(&mut Areas)) -> f64 {
    let calls = (MOST_BYTES / (2 * area)).clamp(1, MOST_CALLS);
    let started = Instant::now();
    let batch = |_| shortest(|| vec![areas_of(text, area); calls], |batch| batch.iter_mut().for_each(&call));
    let times = (0..ROUNDS).take_while(|&round| round == 0 || started.elapsed() < ENOUGH).map(batch);
    times.fold(f64::INFINITY, f64::min) / calls as f64
}
