//! How often each entry kind, each opening again at a frame, each refusal, each fault of
//! a text, each phase, each wait, each bank, each command, each stretch of a table and each
//! way to make a case came up.

mod banks;
mod commands;
pub mod stretches;
mod table;
pub mod told_jobs;
mod waits;
mod ways;

use crate::case::Listed;
use crate::compare::Left;
use crate::generate::frames::Repeats;
use crate::generate::recordings::{Answers, ANSWERS};
use crate::generate::texts::{each, Faults, IN_COLUMN, IN_HEADER};
use crate::job::{holding, Job};
use crate::jobs::JOBS;
use banks::{Late, Named, Situation};
use commands::Commanded;
use model::entry::{ADDRESS, ENTRY_BYTES, FORMS, KIND, VALUE};
use model::phase::{Met, Phase, PHASES};
use model::rows::MOST_COLUMNS;
use model::Fault;
use model::Outcome::{InText, Made};
use std::collections::{BTreeMap, BTreeSet};
use std::fmt;
use std::ops::RangeInclusive;
use stretches::Tabled;
use told_jobs::Told;

const LEAST: u64 = 100;
/// These never occur in the account, so not in honest rows; "`mute` may now stand" there.
const NEVER_HONEST: [u8; 6] = [2, 8, 12, 14, 19, 20];
const LOCKS: RangeInclusive<u8> = 0..=9;

/// Where in a text a fault stands.
#[derive(Clone, Copy, PartialEq, Eq, PartialOrd, Ord, Debug)]
pub enum Part {
    Header,
    Column,
    PastLimit,
}

/// The parts of a text, and the faults that each can have.
const PARTS: [(Part, Faults); 3] =
    [(Part::Header, IN_HEADER), (Part::Column, IN_COLUMN), (Part::PastLimit, IN_COLUMN)];

impl Part {
    fn of(line: usize) -> Part {
        match line {
            1 => Part::Header,
            _ if line <= 1 + MOST_COLUMNS => Part::Column,
            _ => Part::PastLimit,
        }
    }
}

/// What is counted. A job stands in it by its name.
#[derive(Clone, Copy, PartialEq, Eq, PartialOrd, Ord)]
pub enum Count {
    /// Entries of a kind in lists of rows with such answers.
    Entry(Answers, u8),
    /// Kind 8 with value 4, at address 127 and before it.
    OddAt127(Answers),
    OddAt64th(Answers),
    /// Lock values.
    Lock(Answers, u8),
    /// Kinds of lists that were printed.
    Printed(u8),
    /// Entries of a kind whose frame was opened again; of them those of a list that
    /// was opened late, and those with other frames before theirs in the list.
    Reopened(u8),
    ReopenedLate,
    ReopenedPastOthers,
    /// Rows in which a slave, or the reader, met a phase.
    SlaveAt(Phase),
    ReaderAt(Phase),
    /// Bytes of honest rows that a slave with such a waiting number confirmed, or that
    /// the master gave up; of a write or not.
    Confirmed(bool, Option<u8>),
    GivenUp(bool, Option<u8>),
    /// What became of bytes whose master repeats S so: entries of a kind.
    Repeated(Repeats, u8),
    /// Neighbours of a chain by their banks, the far one first.
    Neighbours(u8, u8),
    /// Slaves with so many banks that were accessed at 0 to 63 with the bank register as
    /// it was lent; whether it names one of them.
    StartsAt(u8, bool),
    /// Bytes of honest rows in a bank: of a write or not, the banks of their slave, its
    /// number.
    InBank(bool, u8, u8),
    /// What accesses of honest rows met, writes or not.
    AtBanks(Situation, bool),
    /// What entries of a kind have for a bank, in lists that were read.
    Named(u8, Named),
    /// Entries that name a bank, the last of whose bank register is of such a kind.
    PassedOver(u8),
    /// Banks of lists that were opened late.
    Late(Late),
    /// What commands, and entries of them, have.
    Command(Commanded),
    /// What tables that were read, and their jobs, have.
    Table(Tabled),
    /// What tables that were refused have.
    Told(Told),
    /// Faults of texts: where, the number, and the byte in the line.
    Fault(Part, u8, usize),
    Made(&'static str),
    /// Cases with a mark.
    Marked(&'static str, &'static str),
    Refused(&'static str, u8),
    /// The same, where no other condition held.
    Alone(&'static str, u8),
    /// The same, where the condition of this other number held too.
    With(&'static str, u8, u8),
}

fn kinds() -> RangeInclusive<u8> {
    1..=FORMS.len() as u8
}

fn kind_name(kind: u8) -> &'static str {
    FORMS[usize::from(kind) - 1].name
}

fn of_byte(is_writing: bool, wait: Option<u8>) -> String {
    let access = if is_writing { "write" } else { "read" };
    format!("{access}, wait {}", waits::told(wait))
}

impl fmt::Display for Count {
    fn fmt(&self, to: &mut fmt::Formatter) -> fmt::Result {
        match self {
            Count::Entry(answers, kind) => write!(to, "{answers:?} {}", kind_name(*kind)),
            Count::OddAt127(answers) => write!(to, "{answers:?} odd at 127"),
            Count::OddAt64th(answers) => write!(to, "{answers:?} odd at 64th"),
            Count::Lock(answers, value) => write!(to, "{answers:?} lock {value}"),
            Count::Printed(kind) => write!(to, "printed {}", kind_name(*kind)),
            Count::Reopened(kind) => write!(to, "reopened {}", kind_name(*kind)),
            Count::ReopenedLate => write!(to, "reopened of a late list"),
            Count::ReopenedPastOthers => write!(to, "reopened past others"),
            Count::SlaveAt(phase) => write!(to, "slave at {phase:?}"),
            Count::ReaderAt(phase) => write!(to, "reader at {phase:?}"),
            Count::Confirmed(writing, wait) => write!(to, "{} confirmed", of_byte(*writing, *wait)),
            Count::GivenUp(writing, wait) => write!(to, "{} given up", of_byte(*writing, *wait)),
            Count::Repeated(repeats, kind) => write!(to, "{repeats:?} {}", kind_name(*kind)),
            Count::Neighbours(far, near) => write!(to, "{far} banks next to {near}"),
            Count::StartsAt(banks, held) => write!(to, "{banks} banks, starts held {held}"),
            Count::InBank(writing, banks, bank) => {
                write!(to, "bank {bank} of {banks}, write {writing}")
            }
            Count::AtBanks(met, writing) => write!(to, "{met:?}, write {writing}"),
            Count::Named(kind, named) => write!(to, "bank of {} {named:?}", kind_name(*kind)),
            Count::PassedOver(kind) => write!(to, "passed over {}", kind_name(*kind)),
            Count::Late(bank) => write!(to, "late bank {bank:?}"),
            Count::Command(met) => write!(to, "command {met}"),
            Count::Table(met) => write!(to, "table {met:?}"),
            Count::Told(told) => write!(to, "table refused {told}"),
            Count::Fault(part, number, byte) => write!(to, "{part:?} {number} at byte {byte}"),
            Count::Made(job) => write!(to, "{job} made"),
            Count::Marked(job, mark) => write!(to, "{job} {mark}"),
            Count::Refused(job, number) => write!(to, "{job} refused {number}"),
            Count::Alone(job, number) => write!(to, "{job} {number} alone"),
            Count::With(job, number, other) => write!(to, "{job} {number} with {other}"),
        }
    }
}

pub struct Counts {
    pub cases: u64,
    counted: BTreeMap<Count, u64>,
}

impl Counts {
    pub fn none() -> Counts {
        Counts { cases: 0, counted: BTreeMap::new() }
    }

    pub fn of(&self, count: Count) -> u64 {
        self.counted.get(&count).copied().unwrap_or(0)
    }

    pub fn add_one(&mut self, count: Count) {
        *self.counted.entry(count).or_insert(0) += 1;
    }

    pub fn add(&mut self, other: &Counts) {
        self.cases += other.cases;
        for (&count, times) in &other.counted {
            *self.counted.entry(count).or_insert(0) += times;
        }
    }

    /// Counts a case by what the model returned and left.
    pub fn count<J: Job>(
        &mut self,
        job: &'static str,
        marks: &[&'static str],
        case: &J,
        left: &Left<J>,
    ) {
        self.cases += 1;
        for &mark in marks {
            self.add_one(Count::Marked(job, mark));
        }
        if let Made(made) = left.outcome {
            self.add_one(Count::Made(job));
            case.count(&left.case, made, self);
        }
        if let InText(Fault { number, line, byte }) = left.outcome {
            self.add_one(Count::Fault(Part::of(line), number, byte));
        }
        if let Some(number) = left.outcome.refusal() {
            self.add_refusal(job, number, &holding(case));
            case.count_refused(left.outcome, self);
        }
    }

    fn add_refusal(&mut self, job: &'static str, number: u8, holding: &[u8]) {
        self.add_one(Count::Refused(job, number));
        if holding == [number] {
            self.add_one(Count::Alone(job, number));
        }
        for &other in holding.iter().filter(|&&other| other != number) {
            self.add_one(Count::With(job, number, other));
        }
    }

    pub fn add_list(&mut self, answers: Answers, list: &[u8]) {
        for entry in list.chunks(ENTRY_BYTES) {
            let (kind, address, value) = (entry[KIND], entry[ADDRESS], entry[VALUE]);
            self.add_one(Count::Entry(answers, kind));
            match (kind, address, value) {
                (1, _, _) => self.add_one(Count::Lock(answers, value)),
                (8, 127, 4) => self.add_one(Count::OddAt127(answers)),
                (8, _, 4) => self.add_one(Count::OddAt64th(answers)),
                _ => {}
            }
        }
    }

    pub fn add_reopened(&mut self, kind: u8, is_late: bool, is_past_others: bool) {
        self.add_one(Count::Reopened(kind));
        if is_late {
            self.add_one(Count::ReopenedLate);
        }
        if is_past_others {
            self.add_one(Count::ReopenedPastOthers);
        }
    }

    pub fn add_phases(&mut self, at: fn(Phase) -> Count, met: &Met) {
        PHASES
            .into_iter()
            .filter(|&phase| met.has(phase))
            .for_each(|phase| self.add_one(at(phase)));
    }

    /// The counts that should be reached and are under the least.
    pub fn too_low(&self) -> Vec<String> {
        self.told(expected().into_iter().filter(|&count| self.of(count) < LEAST))
    }

    /// The counts of what cannot be.
    pub fn impossible(&self) -> Vec<String> {
        let expected: BTreeSet<Count> = expected().into_iter().collect();
        self.told(self.counted.keys().copied().filter(|count| !expected.contains(count)))
    }

    fn told(&self, counts: impl Iterator<Item = Count>) -> Vec<String> {
        counts.map(|count| format!("{count}: {}", self.of(count))).collect()
    }
}

/// Every count that can be reached.
fn expected() -> Vec<Count> {
    let mut all: Vec<Count> = ANSWERS.into_iter().flat_map(expected_of_lists).collect();
    all.extend(kinds().map(Count::Printed));
    all.extend(kinds().map(Count::Reopened));
    all.extend([Count::ReopenedLate, Count::ReopenedPastOthers]);
    all.extend(PHASES.map(Count::SlaveAt));
    all.extend(PHASES.map(Count::ReaderAt));
    all.extend(waits::expected());
    all.extend(banks::expected());
    all.extend(commands::expected());
    all.extend(stretches::expected());
    all.extend(told_jobs::expected());
    all.extend(PARTS.into_iter().flat_map(expected_of_texts));
    all.extend(JOBS.iter().flat_map(expected_of_job));
    all
}

fn expected_of_lists(answers: Answers) -> Vec<Count> {
    let honest = answers == Answers::Honest;
    let reachable = |kind: &u8| !(honest && NEVER_HONEST.contains(kind));
    let mut all: Vec<Count> =
        kinds().filter(reachable).map(|kind| Count::Entry(answers, kind)).collect();
    if !honest {
        all.extend([Count::OddAt127(answers), Count::OddAt64th(answers)]);
    }
    all.extend(LOCKS.map(|value| Count::Lock(answers, value)));
    all
}

fn expected_of_texts((part, faults): (Part, Faults)) -> Vec<Count> {
    each(faults).into_iter().map(|(number, byte)| Count::Fault(part, number, byte)).collect()
}

fn expected_of_job(job: &Listed) -> Vec<Count> {
    let name = job.name;
    let mut all = vec![Count::Made(name)];
    all.extend((job.marks)().iter().map(|mark| Count::Marked(name, mark)));
    for (number, later) in (job.refusals)() {
        all.extend([Count::Refused(name, number), Count::Alone(name, number)]);
        all.extend(later.iter().map(|&other| Count::With(name, number, other)));
    }
    all
}
