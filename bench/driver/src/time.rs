//! Rounds in which port and Rust are timed by turns. Of each the least counts: the machine may be busy otherwise.

use std::time::{Duration, Instant};

/// Calls in a sample, for which the clock is read twice.
pub const BATCH: usize = 64;
/// Pairings in a sample.
pub const PAIRINGS: usize = 8;
pub const ROUNDS: usize = 15;
const SAMPLES: usize = 60;
const WARM_UP: usize = 4;

pub struct Clock {
    started: Instant,
    took: Duration,
}

impl Clock {
    pub fn start(&mut self) {
        self.started = Instant::now();
    }

    pub fn stop(&mut self) {
        self.took = self.started.elapsed();
    }
}

/// Nanoseconds of one call.
#[derive(Clone, Copy)]
pub struct Times {
    pub port: f64,
    pub rust: f64,
}

/// The least sample of each round.
pub struct Race {
    port: Vec<f64>,
    rust: Vec<f64>,
}

fn least(of: &[f64]) -> f64 {
    of.iter().copied().fold(f64::INFINITY, f64::min)
}

fn median(of: &[f64]) -> f64 {
    let mut sorted = of.to_vec();
    sorted.sort_by(f64::total_cmp);
    sorted[sorted.len() / 2]
}

impl Race {
    pub fn new() -> Self {
        Self { port: Vec::new(), rust: Vec::new() }
    }

    /// One round: samples of the port and of the Rust by turns, of so many calls each.
    pub fn run(&mut self, calls: usize, mut port: impl FnMut(&mut Clock), mut rust: impl FnMut(&mut Clock)) {
        let mut clock = Clock { started: Instant::now(), took: Duration::ZERO };
        let (mut ports, mut rusts) = (Vec::new(), Vec::new());
        for sample in 0..WARM_UP + SAMPLES {
            port(&mut clock);
            let ports_took = clock.took;
            rust(&mut clock);
            if sample >= WARM_UP {
                ports.push(ports_took.as_nanos() as f64 / calls as f64);
                rusts.push(clock.took.as_nanos() as f64 / calls as f64);
            }
        }
        self.port.push(least(&ports));
        self.rust.push(least(&rusts));
    }

    pub fn times(&self) -> Times {
        Times { port: least(&self.port), rust: least(&self.rust) }
    }

    /// How far the median round lies above the least, in per cent: the median of all rows.
    pub fn spread(races: &[Self]) -> (f64, f64) {
        let above = |of: &[f64]| 100.0 * (median(of) / least(of) - 1.0);
        let of = |pick: fn(&Self) -> &Vec<f64>| median(&races.iter().map(|r| above(pick(r))).collect::<Vec<_>>());
        (of(|r| &r.port), of(|r| &r.rust))
    }
}
