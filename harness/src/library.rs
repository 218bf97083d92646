//! The library under test. Its functions have the names and arguments of the
//! model's.
//!
//! With the feature `linked` they are the linked library's, by the wrapper that
//! its users get; with `mutant`, those of a mutant of the model; with neither,
//! the model's own, so that the comparison can be tried on itself.

use crate::jobs::Lists;
use model::table::{Rows, Stretch};
#[cfg(any(feature = "linked", feature = "mutant"))]
use model::Fault;
use model::Outcome;

pub struct Library;

pub const NAME: &str = if cfg!(feature = "linked") {
    "library"
} else if cfg!(feature = "mutant") {
    "mutant"
} else {
    "model itself"
};

/// What a function answers, in the model's words.
pub trait Told {
    fn told(self) -> Outcome;
}

#[cfg(not(any(feature = "linked", feature = "mutant")))]
pub use model as functions;

#[cfg(not(any(feature = "linked", feature = "mutant")))]
impl Told for Outcome {
    fn told(self) -> Outcome {
        self
    }
}

#[cfg(feature = "mutant")]
pub use mutant as functions;

#[cfg(feature = "mutant")]
impl Told for mutant::Outcome {
    fn told(self) -> Outcome {
        match self {
            mutant::Outcome::Made(made) => Outcome::Made(made),
            mutant::Outcome::Refused(number) => Outcome::Refused(number),
            mutant::Outcome::InText(mutant::Fault { number, line, byte }) => {
                Outcome::InText(Fault { number, line, byte })
            }
            mutant::Outcome::OfJob { number, job } => Outcome::OfJob { number, job },
        }
    }
}

/// Only the wrapper makes buffers of its own.
#[cfg(not(feature = "linked"))]
pub fn lists(_: Rows, _: &[Stretch]) -> Option<Lists> {
    None
}

/// A table as a caller has it, for times.
#[cfg(not(feature = "linked"))]
pub type Prepared = Vec<Stretch>;

#[cfg(not(feature = "linked"))]
pub fn prepared(jobs: &[Stretch]) -> Prepared {
    jobs.to_vec()
}

pub fn read_prepared(rows: Rows, jobs: &Prepared, out: &mut [u8], counts: &mut [usize]) -> Outcome {
    #[cfg(feature = "linked")]
    return linked::read_jobs(rows, jobs, out, counts).told();
    #[cfg(not(feature = "linked"))]
    functions::read_all(rows, jobs, out, counts).told()
}

/// The wrapper. Where the library is not linked, only how it reads and words an
/// answer is tried.
#[path = "../../include/biss.rs"]
#[allow(dead_code)]
pub mod biss;

#[cfg(feature = "linked")]
pub use linked::{lists, prepared, Prepared};

/// The wrapper's functions; those that read a table take its jobs as the model has them.
#[cfg(feature = "linked")]
pub mod functions {
    pub use super::biss::*;
    pub use super::linked::read_all;
}

#[cfg(feature = "linked")]
mod linked {
    use super::biss::{self, Answer, ChannelPlace, Entry, Job, Refusal};
    use super::{Fault, Lists, Outcome, Rows, Stretch, Told};

    pub type Prepared = Vec<Job>;

    pub fn prepared(jobs: &[Stretch]) -> Prepared {
        jobs.iter().map(|&[first, length, opening]| Job { first, length, opening }).collect()
    }

    /// The jobs of a table and behind them one that nobody may look at.
    fn guarded(jobs: &[Stretch]) -> Vec<Job> {
        prepared(&[jobs, &[[usize::MAX; 3]]].concat())
    }

    pub fn read_jobs(
        [cdm, cds]: Rows,
        jobs: &[Job],
        out: &mut [u8],
        counts: &mut [usize],
    ) -> Answer {
        biss::read_all_into(cdm, cds, jobs, out, counts)
    }

    pub fn read_all(rows: Rows, jobs: &[Stretch], out: &mut [u8], counts: &mut [usize]) -> Answer {
        read_jobs(rows, &guarded(jobs)[..jobs.len()], out, counts)
    }

    pub fn lists([cdm, cds]: Rows, jobs: &[Stretch]) -> Option<Lists> {
        let list = |list: &Vec<Entry>| list.iter().flat_map(|entry| entry.bytes()).collect();
        Some(match biss::read_all(cdm, cds, &guarded(jobs)[..jobs.len()]) {
            Ok(lists) => Ok(lists.iter().map(list).collect()),
            Err(refusal) => Err(Answer::Err(refusal).told()),
        })
    }

    impl Told for Answer {
        fn told(self) -> Outcome {
            match self {
                Ok(made) => Outcome::Made(made),
                Err(Refusal::Number(number)) => Outcome::Refused(number),
                Err(Refusal::InText { number, line, byte }) => {
                    Outcome::InText(Fault { number, line, byte })
                }
                Err(Refusal::OfJob { number, job }) => Outcome::OfJob { number, job },
            }
        }
    }

    impl Told for Result<Option<ChannelPlace>, Refusal> {
        fn told(self) -> Outcome {
            self.map(|found| found.map_or(0, |place| usize::from(place.0))).told()
        }
    }
}
