//! A case from a seed: the same seed always gives the same case.

use crate::bench::bench;
use crate::compare::{compare, describe};
use crate::counts::Counts;
use crate::generate::{Marks, Random};
use crate::job::{marks, with_others, Job};
use crate::jobs::JOBS;
use crate::shrink::shrink;

/// A line of the table of jobs, whichever job it is.
pub struct Listed {
    pub name: &'static str,
    share: usize,
    pub refusals: fn() -> Vec<(u8, Vec<u8>)>,
    pub marks: fn() -> Marks,
    pub bench: fn(),
    make: fn(&'static str, u64, &mut Random) -> Box<dyn Case>,
}

impl Listed {
    pub const fn new<J: Job>(name: &'static str, share: usize) -> Listed {
        Listed {
            name,
            share,
            refusals: with_others::<J>,
            marks: marks::<J>,
            bench: bench::<J>,
            make: Seeded::<J>::make,
        }
    }
}

/// A case, whichever job it is of.
pub trait Case {
    /// Compares model and library on it, and counts it if they do not differ.
    fn compare(&self, counts: &mut Counts) -> Result<(), String>;

    /// The case and what both made of it, for a person to read.
    fn describe(&self) -> String;

    /// A small case on which they still differ.
    fn shrunk(&self) -> Box<dyn Case>;
}

/// The case of a seed.
pub fn of_seed(seed: u64) -> Box<dyn Case> {
    let mut random = Random::from_seed(seed);
    let mut drawn = random.below(JOBS.iter().map(|job| job.share).sum());
    for job in JOBS {
        if drawn < job.share {
            return (job.make)(job.name, seed, &mut random);
        }
        drawn -= job.share;
    }
    unreachable!("a number below the sum of the shares lies in one of them")
}

struct Seeded<J> {
    name: &'static str,
    seed: u64,
    marks: Marks,
    case: J,
}

impl<J: Job> Seeded<J> {
    fn make(name: &'static str, seed: u64, random: &mut Random) -> Box<dyn Case> {
        let provoked = J::provoke(random);
        let mut marks = Marks::new();
        let case = J::make(random, &provoked, &mut marks);
        Box::new(Seeded { name, seed, marks, case })
    }
}

impl<J: Job> Case for Seeded<J> {
    fn compare(&self, counts: &mut Counts) -> Result<(), String> {
        let left = compare(&self.case, self.seed)?;
        counts.count(self.name, &self.marks, &self.case, &left);
        Ok(())
    }

    fn describe(&self) -> String {
        format!("job {}\n{}", self.name, describe(&self.case))
    }

    fn shrunk(&self) -> Box<dyn Case> {
        let case = shrink(&self.case, &|candidate| compare(candidate, self.seed).is_err());
        let marks = self.marks.clone();
        Box::new(Seeded { name: self.name, seed: self.seed, marks, case })
    }
}
