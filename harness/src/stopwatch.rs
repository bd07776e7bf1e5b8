//! Times pieces of work over one subject side by side.

use std::time::{Duration, Instant};

const SAMPLES: usize = 301;
const SAMPLE_TIME: Duration = Duration::from_micros(500);

/// Median nanoseconds of one run of each. The samples take turns, so that all
/// meet the same machine; who goes first changes each time.
pub fn in_turns<S, const N: usize>(subject: &mut S, works: [fn(&mut S); N]) -> [f64; N] {
    let runs = works.map(|work| runs_in_a_sample(subject, work));
    let mut samples = [(); N].map(|()| Vec::new());
    for sample in 0..SAMPLES {
        for turn in 0..N {
            let at = (sample + turn) % N;
            samples[at].push(nanoseconds(subject, works[at], runs[at]));
        }
    }
    samples.map(median)
}

/// Warms up, and counts the runs that fill a sample.
fn runs_in_a_sample<S>(subject: &mut S, work: fn(&mut S)) -> u32 {
    let start = Instant::now();
    let mut runs = 0;
    while start.elapsed() < 20 * SAMPLE_TIME {
        work(subject);
        runs += 1;
    }
    runs / 20 + 1
}

fn nanoseconds<S>(subject: &mut S, work: fn(&mut S), runs: u32) -> f64 {
    let start = Instant::now();
    for _ in 0..runs {
        work(subject);
    }
    start.elapsed().as_nanos() as f64 / f64::from(runs)
}

fn median(mut samples: Vec<f64>) -> f64 {
    samples.sort_by(f64::total_cmp);
    samples[samples.len() / 2]
}
