//! Cases from seeds, one after the other or on two threads, and what is shown
//! of one that fails.

use crate::case::{of_seed, Case};
use crate::counts::Counts;
use crate::library;
use std::sync::atomic::{AtomicBool, AtomicU64, Ordering};
use std::thread;
use std::time::{Duration, Instant};

const THREADS: u64 = 2;

/// What stopped the cases.
struct Failure {
    seed: u64,
    what: String,
}

/// Compares the cases of these seeds until another share stops.
fn compare_share(
    seeds: impl Iterator<Item = u64>,
    done: &AtomicU64,
    stop: &AtomicBool,
) -> Result<Counts, Failure> {
    let mut counts = Counts::none();
    for seed in seeds {
        if stop.load(Ordering::Relaxed) {
            break;
        }
        if let Err(what) = of_seed(seed).compare(&mut counts) {
            stop.store(true, Ordering::Relaxed);
            return Err(Failure { seed, what });
        }
        done.fetch_add(1, Ordering::Relaxed);
    }
    Ok(counts)
}

fn compare_all(first: u64, cases: u64) -> Result<Counts, Failure> {
    let (done, stop) = (AtomicU64::new(0), AtomicBool::new(false));
    let start = Instant::now();
    thread::scope(|scope| {
        let (done, stop) = (&done, &stop);
        let workers: Vec<_> = (0..THREADS)
            .map(|share| {
                let seeds = (first + share..first + cases).step_by(THREADS as usize);
                scope.spawn(move || compare_share(seeds, done, stop))
            })
            .collect();
        show_progress(cases, start, done, || workers.iter().all(|worker| worker.is_finished()));
        let mut counts = Counts::none();
        for worker in workers {
            counts.add(&worker.join().expect("a worker panicked; its message is above")?);
        }
        Ok(counts)
    })
}

fn show_progress(cases: u64, start: Instant, done: &AtomicU64, finished: impl Fn() -> bool) {
    let mut shown = Instant::now();
    while !finished() {
        thread::sleep(Duration::from_millis(20));
        if shown.elapsed() >= Duration::from_secs(4) {
            shown = Instant::now();
            let seconds = start.elapsed().as_secs();
            eprintln!("{} of {cases} cases, {seconds} s", done.load(Ordering::Relaxed));
        }
    }
}

/// Shows a failing case, made small.
fn show_failure(Failure { seed, what }: &Failure) {
    println!("DIFFERENCE at seed {seed}: {what}");
    let small = of_seed(*seed).shrunk();
    if let Err(what) = small.compare(&mut Counts::none()) {
        println!("made small: {what}");
    }
    print!("{}", small.describe());
}

/// Compares so many cases from a seed on and prints how often what came up.
pub fn cases(first: u64, cases: u64, judge_counts: bool) -> bool {
    let start = Instant::now();
    let counts = match compare_all(first, cases) {
        Ok(counts) => counts,
        Err(failure) => {
            show_failure(&failure);
            return false;
        }
    };
    let seconds = start.elapsed().as_secs_f64();
    print!("{}", counts.table());
    println!(
        "\n{} cases from seed {first}, model against {}: no difference",
        counts.cases,
        library::NAME
    );
    println!("{seconds:.1} s, {:.0} cases a minute", counts.cases as f64 * 60.0 / seconds);
    let mut wrong = counts.impossible();
    if judge_counts {
        wrong.extend(counts.too_low());
    }
    wrong.iter().for_each(|line| println!("COUNT {line}"));
    wrong.is_empty()
}

/// Compares the case of one seed; shows it if it fails.
fn compare_one(seed: u64, case: &dyn Case) -> bool {
    match case.compare(&mut Counts::none()) {
        Ok(()) => true,
        Err(what) => {
            show_failure(&Failure { seed, what });
            false
        }
    }
}

/// Compares one case and shows it.
pub fn one_seed(seed: u64) -> bool {
    let case = of_seed(seed);
    print!("{}", case.describe());
    let good = compare_one(seed, &*case);
    if good {
        println!("no difference");
    }
    good
}

/// Compares so many cases on one thread, each seed printed before.
pub fn watch(first: u64, cases: u64) -> bool {
    (first..first + cases).all(|seed| {
        println!("{seed}");
        compare_one(seed, &*of_seed(seed))
    })
}
