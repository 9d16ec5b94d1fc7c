//! Times Tolkzin's containers beside Rust's own on the same operations, beside twins in plain Rust of the same steps, and at
//! growing capacities, and prints a table of each.
//!
//! Each operation runs on both sides in turn, many times; the table has the medians and the least times, and the ratio of
//! the least ones, which other work on the machine disturbs least. Both sides answer a checksum, which must be the same.
//! `bench RATIOS.svg GROWTH.svg` also writes a picture of the ratios, and one of what grows with the capacity.
mod capacities;
mod drawing;
mod floors;
mod growth;
mod linked;
mod picture;
mod plain;

use capacities::{Growth, CAPACITIES};
use picture::Bar;
use std::hint::black_box;
use std::time::Instant;

/// A kernel makes its container, runs its operation so many rounds, and answers a checksum.
pub type Kernel = fn(rounds: u64, param: u64) -> u64;

pub struct Operation {
    pub name: &'static str,
    pub param: u64,
    pub ours: Kernel,
    pub peer: &'static str,
    pub theirs: Kernel,
}

/// Nanoseconds an operation, over all runs of one side.
pub struct Times {
    pub median: f64,
    pub least: f64,
}

pub struct Timed {
    pub name: &'static str,
    pub ours: Times,
    pub peer: &'static str,
    pub theirs: Times,
}

impl Timed {
    pub fn ratio(&self) -> f64 {
        self.ours.least / self.theirs.least
    }
}

const REPETITIONS: usize = 61;
const MILLISECONDS_A_RUN: f64 = 4.0;
const ROUNDS_TO_COMPARE: u64 = 1000;

fn main() {
    let rows = printed_ratios("Rust's side", linked::BESIDE_STD);
    println!();
    printed_ratios("the same steps in plain Rust", linked::BESIDE_FLOORS);
    let curves = printed_growth();
    if let [ratios, growth] = &std::env::args().skip(1).collect::<Vec<_>>()[..] {
        let bars: Vec<Bar> = rows.iter().map(bar).collect();
        std::fs::write(ratios, picture::of(&bars)).expect("the picture of ratios can be written");
        std::fs::write(growth, growth::of(&curves)).expect("the picture of growth can be written");
    }
}

fn printed_ratios(peer: &str, operations: &[Operation]) -> Vec<Timed> {
    println!("{:<20} {:>10} {:>10} {:>10} {:>10} {:>7}  {peer}", "operation", "Tolkzin ns", "Rust ns", "(least)", "(least)", "ratio");
    let mut rows = Vec::new();
    for operation in operations {
        let row = timed(operation);
        let (ours, theirs) = (&row.ours, &row.theirs);
        println!("{:<20} {:>10.2} {:>10.2} {:>10.2} {:>10.2} {:>7.2}  {}", row.name, ours.median, theirs.median, ours.least, theirs.least, row.ratio(), row.peer);
        rows.push(row);
    }
    rows
}

fn printed_growth() -> Vec<Growth> {
    let printed = |operation: &str, fields: [String; CAPACITIES.len()]| println!("{operation:<32}{}", fields.map(|field| format!("{field:>11}")).concat());
    println!();
    printed("least ns at the capacity", CAPACITIES.map(growth::with_commas));
    let mut curves = Vec::new();
    for operation in linked::OF_ANY_CAPACITY {
        let curve = capacities::growth(operation);
        printed(curve.operation, curve.times.map(|time| format!("{time:.1}")));
        curves.push(curve);
    }
    curves
}

fn bar(row: &Timed) -> Bar<'_> {
    Bar { operation: row.name, ratio: row.ratio(), peer: row.peer }
}

/// The times of both sides, run in turn.
fn timed(operation: &Operation) -> Timed {
    let (ours, theirs) = ((operation.ours)(ROUNDS_TO_COMPARE, operation.param), (operation.theirs)(ROUNDS_TO_COMPARE, operation.param));
    assert_eq!(ours, theirs, "{}: the checksums differ", operation.name);
    let rounds = [operation.ours, operation.theirs].map(|kernel| rounds_for_a_run(kernel, operation.param));
    let mut times = [Vec::new(), Vec::new()];
    for _ in 0..REPETITIONS {
        times[0].push(nanoseconds(operation.ours, rounds[0], operation.param));
        times[1].push(nanoseconds(operation.theirs, rounds[1], operation.param));
    }
    let [ours, theirs] = times.map(of_all_runs);
    Timed { name: operation.name, ours, peer: operation.peer, theirs }
}

fn rounds_for_a_run(kernel: Kernel, param: u64) -> u64 {
    let mut rounds = 1000;
    loop {
        let milliseconds = nanoseconds(kernel, rounds, param) * rounds as f64 / 1e6;
        if milliseconds > MILLISECONDS_A_RUN / 4.0 || rounds > 1 << 32 {
            return ((rounds as f64 * MILLISECONDS_A_RUN / milliseconds) as u64).max(1000);
        }
        rounds *= 4;
    }
}

fn nanoseconds(kernel: Kernel, rounds: u64, param: u64) -> f64 {
    let start = Instant::now();
    black_box(kernel(black_box(rounds), black_box(param)));
    start.elapsed().as_secs_f64() * 1e9 / rounds as f64
}

fn of_all_runs(mut times: Vec<f64>) -> Times {
    times.sort_by(f64::total_cmp);
    Times { median: times[times.len() / 2], least: times[0] }
}
