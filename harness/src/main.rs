//! Compares the library under test with a model written from paper 01 alone.

mod bench;
mod case;
mod cases;
mod channels;
mod checks;
mod compare;
mod conditions;
mod counts;
mod generate;
mod job;
mod jobs;
mod large_table;
mod lent;
mod library;
mod programs;
mod selftest;
mod shrink;

use cases::{cases, one_seed, watch};
use channels::channel_places;
use large_table::large_table;
use std::path::Path;
use std::process::ExitCode;

const USUAL_CASES: u64 = 600_000;
/// From the folder that harness/run starts in.
const ROOT: &str = "..";

const HELP: &str = "\
harness                   the bench card on the model, every channel place, a large
                          table, then 600,000 cases
harness soak N [FIRST]    N thousand cases from seed FIRST (default 1000000)
harness seed S            one case, shown
harness watch FIRST N     N cases on one thread, each seed printed before it
                          runs: the last one printed is the one that crashed
harness bench             times model against library
harness programs [write]  the files of the indexing program's crates, what the
                          card and, of commands, the program `recordings` print,
                          the recordings among the examples and what the preset
                          prints held to the model, or written; docs/CHECK.md
                          held to both
harness index PROGRAM N   the linked program on the named inputs and on the texts
                          of N seeds
harness selftest          the bench card on the model, and the wrapper's words
                          and numbers
harness --help            this text

Exit status 0 if model and library never differ, the model keeps its own
promises and every count of entries, frames opened again, refusals, faults,
phases, waits, banks, commands, stretches and ways to make a case is at least 100
(the last not asked of soak under 600, seed and watch).";

fn selftest() -> bool {
    let (tried, failed) = selftest::selftest();
    failed.iter().for_each(|line| println!("BENCH CARD {line}"));
    println!(
        "bench card: {tried} values tried on the model and the wrapper, {} wrong",
        failed.len()
    );
    failed.is_empty()
}

fn soak(thousands: u64, first: u64) -> bool {
    cases(first, 1000 * thousands, 1000 * thousands >= USUAL_CASES)
}

/// None if the words are not understood.
fn obey(words: &[&str]) -> Option<bool> {
    let good = match words {
        [] => selftest() && channel_places() && large_table() && cases(0, USUAL_CASES, true),
        ["soak", thousands] => soak(thousands.parse().ok()?, 1_000_000),
        ["soak", thousands, first] => soak(thousands.parse().ok()?, first.parse().ok()?),
        ["seed", seed] => one_seed(seed.parse().ok()?),
        ["watch", first, cases] => watch(first.parse().ok()?, cases.parse().ok()?),
        ["selftest"] => selftest(),
        ["programs"] => programs::agree(Path::new(ROOT)),
        ["programs", "write"] => programs::write(Path::new(ROOT)),
        ["index", program, texts] => programs::linked(program, texts.parse().ok()?),
        ["bench"] => {
            bench::bench_all();
            true
        }
        ["--help" | "-h" | "help"] => {
            println!("{HELP}");
            true
        }
        _ => return None,
    };
    Some(good)
}

fn main() -> ExitCode {
    let words: Vec<String> = std::env::args().skip(1).collect();
    let words: Vec<&str> = words.iter().map(String::as_str).collect();
    match obey(&words) {
        Some(true) => ExitCode::SUCCESS,
        Some(false) => ExitCode::FAILURE,
        None => {
            eprintln!("{HELP}");
            ExitCode::from(2)
        }
    }
}
