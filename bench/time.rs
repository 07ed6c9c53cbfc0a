//! Times, engine and twin in turn, so that disturbances meet both.

use crate::buffers::{Side, SIDES};
use crate::workload::{self, Workload};
use std::time::{Duration, Instant};

/// Samples of each side, and how long each should take at least.
const SAMPLES: usize = 101;
const SAMPLE: Duration = Duration::from_micros(50);

/// CSV: nanoseconds per call, median and quartiles.
pub fn print() {
    println!("workload,side,calls,samples,low,median,high");
    for mut workload in workload::all() {
        let calls = SIDES.map(|side| enough_calls(&mut workload, side));
        let mut samples = SIDES.map(|_| Vec::with_capacity(SAMPLES));
        for _ in 0..SAMPLES {
            for i in 0..2 {
                samples[i].push(sample(&mut workload, SIDES[i], calls[i]));
            }
        }
        for i in 0..2 {
            print_row(&workload.name, SIDES[i], calls[i], &mut samples[i]);
        }
    }
}

/// Calls that take as long as a sample should.
fn enough_calls(workload: &mut Workload, side: Side) -> usize {
    let mut calls = 1;
    while sample(workload, side, calls) * (calls as f64) < SAMPLE.as_nanos() as f64 {
        calls *= 2;
    }
    calls
}

/// Nanoseconds per call.
fn sample(workload: &mut Workload, side: Side, calls: usize) -> f64 {
    let start = Instant::now();
    workload.run(side, calls);
    start.elapsed().as_nanos() as f64 / calls as f64
}

fn print_row(name: &str, side: Side, calls: usize, samples: &mut [f64]) {
    samples.sort_by(f64::total_cmp);
    let [low, median, high] = [1, 2, 3].map(|quarter| samples[quarter * (samples.len() - 1) / 4]);
    let side = side.name();
    let count = samples.len();
    println!("{name},{side},{calls},{count},{low:.2},{median:.2},{high:.2}");
}
