//! Two sides timed by turns.

use std::time::{Duration, Instant};

const SAMPLES: u32 = 150;
const SAMPLE: Duration = Duration::from_micros(400);

/// The least time of one pass on each side, in nanoseconds.
pub fn race(mut rust: impl FnMut(), mut ours: impl FnMut()) -> [f64; 2] {
    let sides: [&mut dyn FnMut(); 2] = [&mut rust, &mut ours];
    let mut best = [f64::INFINITY; 2];
    let mut passes = [1u32; 2];
    for _ in 0..SAMPLES {
        for side in 0..2 {
            let start = Instant::now();
            (0..passes[side]).for_each(|_| sides[side]());
            let took = start.elapsed();
            best[side] = best[side].min(took.as_nanos() as f64 / passes[side] as f64);
            if took < SAMPLE {
                passes[side] *= 2;
            }
        }
    }
    best
}
