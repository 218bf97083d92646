//! Tables that were refused: which jobs have which refusals, where they stand to the job
//! that is told, and the edges of the conditions.

use super::{Count, Counts};
use crate::conditions::{bad_column, holds_of_job, OF_JOB};
use model::rows::MOST_COLUMNS;
use model::table::{Rows, Stretch};
use model::Outcome::{self, OfJob};
use std::fmt;

/// Where a job stands in its table.
#[derive(Clone, Copy, PartialEq, Eq, PartialOrd, Ord, Debug)]
pub enum Place {
    First,
    Middle,
    Last,
}

pub const PLACES: [Place; 3] = [Place::First, Place::Middle, Place::Last];

impl Place {
    fn of(job: usize, jobs: usize) -> Place {
        match job {
            0 => Place::First,
            _ if job + 1 == jobs => Place::Last,
            _ => Place::Middle,
        }
    }
}

/// Where another job, or the same one, stands to the job that is told.
#[derive(Clone, Copy, PartialEq, Eq, PartialOrd, Ord, Debug)]
pub enum Side {
    Earlier,
    Same,
    Later,
}

pub const SIDES: [Side; 3] = [Side::Earlier, Side::Same, Side::Later];

impl Side {
    fn of(job: usize, told: usize) -> Side {
        match job {
            _ if job < told => Side::Earlier,
            _ if job == told => Side::Same,
            _ => Side::Later,
        }
    }
}

/// The told refusals, each with those that a job of the table can have then, where the
/// first such job can stand, and on which sides of the told job such jobs can. Of one
/// number the first job is told, and so of 5, 7 and 8; the same job has them in this order.
pub const HOLDING: [(u8, u8, &[Place], &[Side]); 21] = [
    (32, 20, &PLACES, &[]),
    (32, 5, &PLACES, &[]),
    (32, 7, &PLACES, &[]),
    (32, 8, &PLACES, &[]),
    (6, 20, &PLACES, &[]),
    (6, 5, &PLACES, &[]),
    (6, 7, &PLACES, &[]),
    (6, 8, &PLACES, &[]),
    (20, 20, &PLACES, NOT_EARLIER),
    (20, 5, &PLACES, &SIDES),
    (20, 7, &PLACES, &SIDES),
    (20, 8, &PLACES, &SIDES),
    (5, 5, &PLACES, NOT_EARLIER),
    (5, 7, &PLACES, NOT_EARLIER),
    (5, 8, &PLACES, NOT_EARLIER),
    (7, 7, &PLACES, NOT_EARLIER),
    (7, 8, &PLACES, NOT_EARLIER),
    (7, 5, NOT_FIRST, LATER),
    (8, 8, &PLACES, NOT_EARLIER),
    (8, 5, NOT_FIRST, LATER),
    (8, 7, NOT_FIRST, LATER),
];

const NOT_EARLIER: &[Side] = &[Side::Same, Side::Later];
const LATER: &[Side] = &[Side::Later];
const NOT_FIRST: &[Place] = &[Place::Middle, Place::Last];

/// What just makes a refusal: of the told job, or for 9 of the room.
#[derive(Clone, Copy, PartialEq, Eq, PartialOrd, Ord, Debug)]
pub enum Edge {
    /// 20: its last column or its empty stretch lies one column too far; the sum of its
    /// first column and its length is small in 64 bits; its first column is near 2^64.
    OneColumnPast,
    EmptyPast,
    SumWraps,
    FirstNearTop,
    /// 5: 4,097 columns.
    OneTooLong,
    /// 7: in its first column, in its last.
    BadInFirst,
    BadInLast,
    /// 8: one past its length, or a column of the stretch, counted from the recording.
    OpeningOnePast,
    OpeningOfRecording,
    /// 9: a byte short; for 20, 5, 7 and 8 the lists of the jobs before need more room.
    OneByteShort,
    ShortBefore(u8),
}

pub const EDGES: [Edge; 14] = [
    Edge::OneColumnPast,
    Edge::EmptyPast,
    Edge::SumWraps,
    Edge::FirstNearTop,
    Edge::OneTooLong,
    Edge::BadInFirst,
    Edge::BadInLast,
    Edge::OpeningOnePast,
    Edge::OpeningOfRecording,
    Edge::OneByteShort,
    Edge::ShortBefore(20),
    Edge::ShortBefore(5),
    Edge::ShortBefore(7),
    Edge::ShortBefore(8),
];

/// What is counted of refused tables.
#[derive(Clone, Copy, PartialEq, Eq, PartialOrd, Ord)]
pub enum Told {
    /// Nothing holds but a number of the job that is told; where it stands.
    Alone(u8, Place),
    /// A number is told while this other one, or itself, holds of a job; where the first
    /// such job stands.
    Holding(u8, u8, Place),
    /// The same, where such a job stands to the one that is told.
    Beside(u8, u8, Side),
    Edge(Edge),
}

impl fmt::Display for Told {
    fn fmt(&self, to: &mut fmt::Formatter) -> fmt::Result {
        match self {
            Told::Alone(number, place) => write!(to, "{number} alone, of the {place:?} job"),
            Told::Holding(told, number, place) => {
                write!(to, "{told}, {number} of the {place:?} job")
            }
            Told::Beside(told, number, side) => write!(to, "{told}, {number} of the {side:?} job"),
            Told::Edge(edge) => write!(to, "{edge:?}"),
        }
    }
}

/// A table that was refused, and the bytes that the list of each job needs, 0 where it
/// has none.
pub struct Untaken<'a> {
    pub rows: Rows<'a>,
    pub jobs: &'a [Stretch],
    pub needs: Vec<usize>,
    pub room: usize,
}

impl Untaken<'_> {
    /// The jobs of which a refusal holds.
    fn having(&self, number: u8) -> Vec<usize> {
        let holds = |&job: &usize| holds_of_job(number, self.jobs[job], self.rows);
        (0..self.jobs.len()).filter(holds).collect()
    }

    /// The edges that the told job stands at.
    fn edges(&self, number: u8, job: usize) -> Vec<(Edge, bool)> {
        let [first, length, opening] = self.jobs[job];
        let columns = self.rows[0].len();
        let end = first.wrapping_add(length);
        let is_bad = |column: usize| bad_column(self.rows, column);
        let is_short = self.needs[..job].iter().sum::<usize>() > self.room;
        let mut edges = match number {
            20 => vec![
                (Edge::OneColumnPast, length > 0 && end == columns + 1),
                (Edge::EmptyPast, length == 0 && first == columns + 1),
                (Edge::SumWraps, end < first && end <= columns),
                (Edge::FirstNearTop, first > usize::MAX - 8),
            ],
            5 => vec![(Edge::OneTooLong, length == MOST_COLUMNS + 1)],
            7 => vec![(Edge::BadInFirst, is_bad(first)), (Edge::BadInLast, is_bad(end - 1))],
            _ => vec![
                (Edge::OpeningOnePast, opening == length + 1),
                (Edge::OpeningOfRecording, first <= opening && opening < end),
            ],
        };
        edges.push((Edge::ShortBefore(number), is_short));
        edges
    }
}

impl Counts {
    pub fn add_refused_table(&mut self, table: &Untaken, outcome: Outcome) {
        let Some(told) = outcome.refusal() else { return };
        let having = OF_JOB.map(|number| (number, table.having(number)));
        for (number, jobs) in having.iter().filter(|(_, jobs)| !jobs.is_empty()) {
            let place = Place::of(jobs[0], table.jobs.len());
            self.add_one(Count::Told(Told::Holding(told, *number, place)));
        }
        let needed: usize = table.needs.iter().sum();
        if told == 9 && needed == table.room + 1 {
            self.add_one(Count::Told(Told::Edge(Edge::OneByteShort)));
        }
        if let OfJob { job, .. } = outcome {
            let holding = having.iter().filter(|(_, jobs)| !jobs.is_empty()).count();
            if holding == 1 && needed <= table.room {
                self.add_one(Count::Told(Told::Alone(told, Place::of(job, table.jobs.len()))));
            }
            self.add_told_job(table, told, job, &having);
        }
    }

    /// Counts the jobs that have refusals against the one that is told, and its edges.
    fn add_told_job(&mut self, table: &Untaken, told: u8, job: usize, having: &[(u8, Vec<usize>)]) {
        for (number, jobs) in having {
            let is_on = |side: &Side| jobs.iter().any(|&other| Side::of(other, job) == *side);
            for side in SIDES.into_iter().filter(is_on) {
                self.add_one(Count::Told(Told::Beside(told, *number, side)));
            }
        }
        for (edge, _) in table.edges(told, job).into_iter().filter(|&(_, is_met)| is_met) {
            self.add_one(Count::Told(Told::Edge(edge)));
        }
    }
}

pub fn expected() -> Vec<Count> {
    let mut all: Vec<Told> = EDGES.map(Told::Edge).into();
    all.extend(OF_JOB.iter().flat_map(|&number| PLACES.map(|place| Told::Alone(number, place))));
    for (told, number, places, sides) in HOLDING {
        all.extend(places.iter().map(|&place| Told::Holding(told, number, place)));
        all.extend(sides.iter().map(|&side| Told::Beside(told, number, side)));
    }
    all.into_iter().map(Count::Told).collect()
}
