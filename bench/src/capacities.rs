//! Times operations at growing capacities.
use crate::Kernel;
use std::hint::black_box;
use std::time::Instant;

pub const CAPACITIES: [u64; 5] = [8, 64, 512, 4096, 65536];

/// Nanoseconds a round at each of the capacities.
pub struct Growth {
    pub operation: &'static str,
    pub times: [f64; CAPACITIES.len()],
}

const LEAST_SECONDS_A_RUN: f64 = 0.004;
const GREATEST_TURNS: usize = 25;
const SECONDS_FOR_TURNS: f64 = 0.5;

pub fn growth(&(operation, kernel): &(&'static str, Kernel)) -> Growth {
    Growth { operation, times: CAPACITIES.map(|capacity| nanoseconds_a_round(kernel, capacity)) }
}

/// Two runs of different lengths make and fill the container alike, so their difference is that of their rounds.
fn nanoseconds_a_round(kernel: Kernel, capacity: u64) -> f64 {
    let long_rounds = rounds_for_a_run(kernel, capacity);
    let short_rounds = long_rounds / 4;
    let (mut long, mut short) = (f64::INFINITY, f64::INFINITY);
    let start = Instant::now();
    for _ in 0..GREATEST_TURNS {
        long = long.min(seconds(kernel, long_rounds, capacity));
        short = short.min(seconds(kernel, short_rounds, capacity));
        if start.elapsed().as_secs_f64() > SECONDS_FOR_TURNS {
            break;
        }
    }
    (long - short) * 1e9 / (long_rounds - short_rounds) as f64
}

/// So many rounds that three quarters of them take half as long as the filling at least, whose own time varies.
fn rounds_for_a_run(kernel: Kernel, capacity: u64) -> u64 {
    let filling = seconds(kernel, 0, capacity);
    let wanted = LEAST_SECONDS_A_RUN.max(filling / 2.0);
    // a container that takes seconds to fill is filled seldom
    let mut rounds = 1000.max((filling * 1e4) as u64);
    while seconds(kernel, rounds, capacity) - seconds(kernel, rounds / 4, capacity) < wanted && rounds < 1 << 32 {
        rounds *= 4;
    }
    rounds
}

fn seconds(kernel: Kernel, rounds: u64, capacity: u64) -> f64 {
    let start = Instant::now();
    black_box(kernel(black_box(rounds), black_box(capacity)));
    start.elapsed().as_secs_f64()
}
