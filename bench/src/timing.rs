//! Least times. What is compared is done in turn, so that a slower minute counts for all of it.

use std::hint::black_box;
use std::time::{Duration, Instant};

/// At least so many rounds, and further ones until so much time is over.
#[derive(Clone, Copy)]
pub struct Effort {
    pub rounds: usize,
    pub time: Duration,
}

/// The least time of each of several works, of which `time` does one and says how long it took.
pub fn least_times(
    effort: Effort,
    works: usize,
    mut time: impl FnMut(usize) -> Duration,
) -> Vec<Duration> {
    let mut least = vec![Duration::MAX; works];
    let start = Instant::now();
    let mut round = 0;
    while round < effort.rounds || start.elapsed() < effort.time {
        for (work, least) in least.iter_mut().enumerate() {
            *least = time(work).min(*least);
        }
        round += 1;
    }
    least
}

pub fn time_of<T>(work: impl FnOnce() -> T) -> Duration {
    let start = Instant::now();
    black_box(work());
    start.elapsed()
}

pub fn ratio(time: Duration, other: Duration) -> f64 {
    time.as_secs_f64() / other.as_secs_f64()
}
