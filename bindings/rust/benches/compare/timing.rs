//! Side by side: two ways to do one thing to the same bytes, timed in turns so that both see the same machine, and their medians.

use std::hint::black_box;
use std::time::Instant;

/// Rounds of a comparison: in each, both sides run one batch.
const ROUNDS: usize = 41;
/// A batch runs for about so long.
const BATCH_NANOS: f64 = 400_000.0;

/// Medians of both sides in nanoseconds per call.
pub struct Compared {
    pub library: f64,
    pub other: f64,
}

impl Compared {
    pub fn ratio(&self) -> f64 {
        self.library / self.other
    }

    /// What is left of both without something else.
    pub fn without(&self, base: &Compared) -> Compared {
        Compared { library: self.library - base.library, other: self.other - base.other }
    }
}

fn batch<T, R>(n: usize, state: &mut T, act: &mut impl FnMut(&mut T) -> R) -> f64 {
    let start = Instant::now();
    for _ in 0..n {
        black_box(act(black_box(&mut *state)));
    }
    start.elapsed().as_nanos() as f64 / n as f64
}

fn median(mut times: Vec<f64>) -> f64 {
    times.sort_by(|a, b| a.total_cmp(b));
    times[times.len() / 2]
}

/// Times both sides, each as often as it takes for a batch.
pub fn compare<T, R, Q>(state: &mut T, mut library: impl FnMut(&mut T) -> R, mut other: impl FnMut(&mut T) -> Q) -> Compared {
    let once = batch(64, state, &mut library).max(batch(64, state, &mut other)).max(0.5);
    let n = ((BATCH_NANOS / once) as usize).clamp(1, 1_000_000);
    let (mut left, mut right) = (Vec::new(), Vec::new());
    for round in 0..ROUNDS {
        if round % 2 == 0 {
            left.push(batch(n, state, &mut library));
            right.push(batch(n, state, &mut other));
        } else {
            right.push(batch(n, state, &mut other));
            left.push(batch(n, state, &mut library));
        }
    }
    Compared { library: median(left), other: median(right) }
}
