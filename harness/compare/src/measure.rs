//! Timing of the port beside the Rust: CPU time, both sides in turn within one
//! run, so that a slow moment of the machine meets both.

use crate::clock::{cpu_time, keep_heap};

const ROUNDS: usize = 41;
/// CPU time of one side in one round, in nanoseconds.
const ROUND_TIME: f64 = 1e6;

/// Before all measurements. What the Rust frees stays with the process, so that
/// new pages are not paid for again by each call.
pub fn start() {
    keep_heap();
    println!(
        "{:<34} {:>17} {:>17} {:>7}",
        "ns per result, least / median", "port", "Rust", "ratio"
    );
}

/// Prints the times per result of two calls that each give `results` results,
/// and the ratio of the least times.
pub fn side_by_side(name: &str, results: usize, mut port: impl FnMut(), mut rust: impl FnMut()) {
    let mut port = Side::new(&mut port);
    let mut rust = Side::new(&mut rust);
    for _ in 0..ROUNDS {
        port.run_round();
        rust.run_round();
    }
    let (port, rust) = (port.times(results), rust.times(results));
    println!(
        "{name:<34} {:>8.2} {:>8.2} {:>8.2} {:>8.2} {:>7.2}",
        port.least,
        port.median,
        rust.least,
        rust.median,
        port.least / rust.least
    );
}

struct Times {
    least: f64,
    median: f64,
}

struct Side<'a> {
    call: &'a mut dyn FnMut(),
    calls: usize,
    rounds: Vec<f64>,
}

impl<'a> Side<'a> {
    fn new(call: &'a mut dyn FnMut()) -> Self {
        call();
        let once = time_of(call, 1);
        Side {
            call,
            calls: (ROUND_TIME / once).ceil() as usize,
            rounds: Vec::new(),
        }
    }

    fn run_round(&mut self) {
        let time = time_of(self.call, self.calls);
        self.rounds.push(time / self.calls as f64);
    }

    fn times(mut self, results: usize) -> Times {
        self.rounds.sort_by(f64::total_cmp);
        Times {
            least: self.rounds[0] / results as f64,
            median: self.rounds[ROUNDS / 2] / results as f64,
        }
    }
}

fn time_of(call: &mut dyn FnMut(), calls: usize) -> f64 {
    let start = cpu_time();
    for _ in 0..calls {
        call();
    }
    cpu_time() - start
}
