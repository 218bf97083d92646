//! Times model and library side by side.

pub mod rows;
mod tables;

use crate::job::Job;
use crate::jobs::{Model, JOBS};
use crate::library::Library;
use std::hint::black_box;
use std::time::Instant;

const ROUNDS: usize = 400;
/// A timed stretch holds about this many columns, so that the clock is fine
/// enough for short rows.
const COLUMNS_A_STRETCH: usize = 8192;
/// Rounds where several cases are called in turn.
const VARIED_ROUNDS: usize = 50;

/// Cases that are timed in turn.
pub struct Timed<J> {
    what: String,
    row: &'static str,
    /// Of all cases together.
    columns: usize,
    cases: Vec<J>,
}

impl<J> Timed<J> {
    pub fn new(what: &str, row: &'static str, columns: usize, cases: Vec<J>) -> Timed<J> {
        Timed { what: what.to_string(), row, columns, cases }
    }
}

/// Shortens a time to that of a timed stretch of calls, if it took less.
fn shorten<J, A>(least: &mut f64, repeats: usize, case: &mut J, call: impl Fn(&mut J) -> A) {
    let start = Instant::now();
    for _ in 0..repeats {
        black_box(call(black_box(&mut *case)));
    }
    *least = least.min(start.elapsed().as_nanos() as f64 / repeats as f64);
}

/// The times in ns a column, from the least of each case: of the model and of the library.
fn least<J: Job>(timed: &Timed<J>) -> [f64; 2] {
    let repeats = (COLUMNS_A_STRETCH / timed.columns).max(1);
    let rounds = if timed.cases.len() == 1 { ROUNDS } else { VARIED_ROUNDS };
    let (mut model, mut library) = (timed.cases.clone(), timed.cases.clone());
    let mut best = vec![[f64::MAX; 2]; timed.cases.len()];
    for _ in 0..rounds {
        for (place, best) in best.iter_mut().enumerate() {
            shorten(&mut best[0], repeats, &mut model[place], |case| case.call(&Model));
            shorten(&mut best[1], repeats, &mut library[place], |case| case.call(&Library));
        }
    }
    [0, 1].map(|way| best.iter().map(|best| best[way]).sum::<f64>() / timed.columns as f64)
}

/// Times one job.
pub fn bench<J: Job>() {
    for timed in J::timed() {
        let [model, library] = least(&timed);
        let (what, row, columns) = (&timed.what, timed.row, timed.columns / timed.cases.len());
        let ratio = library / model;
        println!("{what:<16}{columns:>8}  {row:<8}{model:>10.2}{library:>10.2}{ratio:>12.2}");
    }
}

/// Times every job.
pub fn bench_all() {
    println!("ns per column, of a printed list per byte; least of {ROUNDS} interleaved stretches");
    println!(
        "varied: {} different rows in turn, the least of {VARIED_ROUNDS} calls of each",
        rows::VARIED_ROWS
    );
    println!("banks: such rows for slaves with {} banks; half the frames choose one", rows::BANKS);
    println!("waits: such rows, or built ones, for a slave that waits {}", rows::WAIT);
    println!("commands: such rows; half the frames are commands that are executed");
    println!(
        "read_all: {} stretches of 100 to 500 columns of varied rows in one call, and against as many",
        rows::STRETCHES
    );
    println!("  calls of read; ample: room for every column; exact: room for the lists, in each call too");
    println!(
        "{:<16}{:>8}  {:<8}{:>10}{:>10}{:>12}{:>12}",
        "job", "columns", "row", "model", "library", "lib / model", "/ singly"
    );
    JOBS.iter().for_each(|job| (job.bench)());
    tables::bench();
}
