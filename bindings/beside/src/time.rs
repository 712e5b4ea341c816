//! Times of two calls, on the same clock and by turns, so that a busy machine slows both.

use std::time::{Duration, Instant};

/// The shortest time of one call, in nanoseconds.
#[derive(Clone, Copy)]
pub struct Times {
    pub ours: f64,
    pub theirs: f64,
}

impl Times {
    pub fn ratio(&self) -> f64 {
        self.ours / self.theirs
    }
}

/// A sample is so many calls that the clock's own steps do not show.
const SAMPLE: Duration = Duration::from_micros(200);
const FEWEST: usize = 5;

fn sample(calls: u32, call: &mut impl FnMut()) -> f64 {
    let start = Instant::now();
    for _ in 0..calls {
        call();
    }
    start.elapsed().as_nanos() as f64 / f64::from(calls)
}

/// How many calls make a sample. The first calls also warm the caches.
fn calls(call: &mut impl FnMut()) -> u32 {
    let one = (0..3).map(|_| sample(1, call)).fold(f64::INFINITY, f64::min);
    (SAMPLE.as_nanos() as f64 / one).ceil().clamp(1.0, 10_000.0) as u32
}

/// The best of as many samples as the budget allows, five at least.
pub fn best(budget: Duration, mut ours: impl FnMut(), mut theirs: impl FnMut()) -> Times {
    let (our_calls, their_calls) = (calls(&mut ours), calls(&mut theirs));
    let mut times = Times { ours: f64::INFINITY, theirs: f64::INFINITY };
    let start = Instant::now();
    let mut samples = 0;
    while samples < FEWEST || start.elapsed() < budget {
        times.ours = times.ours.min(sample(our_calls, &mut ours));
        times.theirs = times.theirs.min(sample(their_calls, &mut theirs));
        samples += 1;
    }
    times
}
