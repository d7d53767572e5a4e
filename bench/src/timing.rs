//! Medians of repeated runs.

use std::time::{Duration, Instant};

/// How many runs a median is taken of.
const RUNS: usize = 101;

/// A run repeats its job for at least so long, which is short beside the time for which another program may take its place.
const RUN: Duration = Duration::from_micros(400);

/// The median time of each job in nanoseconds. The jobs' runs take turns, so that what disturbs one disturbs all.
pub fn medians<const JOBS: usize>(mut jobs: [&mut dyn FnMut(); JOBS]) -> [f64; JOBS] {
    let repeats = jobs.each_mut().map(|job| repeats(*job));
    let mut times = [(); JOBS].map(|_| Vec::with_capacity(RUNS));
    for _ in 0..RUNS {
        for ((job, &repeats), times) in jobs.iter_mut().zip(&repeats).zip(&mut times) {
            times.push(run(*job, repeats).as_nanos() as f64 / repeats as f64);
        }
    }
    times.map(median)
}

fn run(job: &mut dyn FnMut(), repeats: u32) -> Duration {
    let start = Instant::now();
    for _ in 0..repeats {
        job();
    }
    start.elapsed()
}

/// How often a job is to be repeated in one run.
fn repeats(job: &mut dyn FnMut()) -> u32 {
    let mut repeats = 1;
    while run(job, repeats) < RUN {
        repeats *= 2;
    }
    repeats
}

fn median(mut times: Vec<f64>) -> f64 {
    times.sort_by(f64::total_cmp);
    times[times.len() / 2]
}
