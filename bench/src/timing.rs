//! Interleaved timing.

use std::time::{Duration, Instant};

/// How often each side is timed, and how long one timing lasts at least.
const ROUNDS: usize = 41;
const LASTS: Duration = Duration::from_millis(2);

/// Nanoseconds per call: for each side one figure for each round.
pub struct Times(Vec<Vec<f64>>);

fn sorted(mut figures: Vec<f64>) -> Vec<f64> {
    figures.sort_by(f64::total_cmp);
    figures
}

impl Times {
    /// The median time per call of a side.
    pub fn median(&self, side: usize) -> f64 {
        sorted(self.0[side].clone())[ROUNDS / 2]
    }

    /// The ratio of one side to another, round by round: lower quartile, median, upper quartile.
    pub fn ratio(&self, of: usize, to: usize) -> (f64, f64, f64) {
        let ratios = sorted(self.0[of].iter().zip(&self.0[to]).map(|(a, b)| a / b).collect());
        (ratios[ROUNDS / 4], ratios[ROUNDS / 2], ratios[ROUNDS * 3 / 4])
    }
}

fn lasted(call: &mut dyn FnMut(), count: u32) -> Duration {
    let start = Instant::now();
    for _ in 0..count {
        call();
    }
    start.elapsed()
}

/// How many calls last long enough. The calls made here warm up.
fn enough(call: &mut dyn FnMut()) -> u32 {
    let mut count = 1;
    while lasted(call, count) < LASTS {
        count *= 2;
    }
    count
}

/// Times each side once in each round, starting with another side each time.
pub fn interleaved(sides: &mut [&mut dyn FnMut()]) -> Times {
    let counts: Vec<u32> = sides.iter_mut().map(|side| enough(*side)).collect();
    let mut times = vec![Vec::with_capacity(ROUNDS); sides.len()];
    for round in 0..ROUNDS {
        for turn in 0..sides.len() {
            let side = (round + turn) % sides.len();
            let lasted = lasted(sides[side], counts[side]);
            times[side].push(lasted.as_nanos() as f64 / f64::from(counts[side]));
        }
    }
    Times(times)
}
