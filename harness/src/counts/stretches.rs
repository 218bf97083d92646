//! Tables of jobs that were read: their stretches, their room, and what their lists show.

use super::{Count, Counts};
use crate::conditions::bad_column;
use crate::generate::tables::{starts, MOST_JOBS};
use model::entry::{
    column_in, names_bank, Entry, Kind, ADDRESS, BANK, COLUMN, ENTRY_BYTES, ID, KIND, NO_BANK_YET,
};
use model::frame::BANK_REGISTER;
use model::list::list;
use model::rows::{MOST_COLUMNS, ZEROS_TO_REST};
use model::table::{Rows, Stretch};

/// The enum and the list of all that it names.
macro_rules! tabled {
    ($($(#[$told:meta])* $name:ident,)*) => {
        /// What a table that was read has, or one of its jobs.
        #[derive(Clone, Copy, PartialEq, Eq, PartialOrd, Ord, Debug)]
        pub enum Tabled {
            $($(#[$told])* $name,)*
        }

        pub const TABLED: &[Tabled] = &[$(Tabled::$name,)*];
    };
}

tabled! {
    /// How many jobs the table has.
    NoJob,
    OneJob,
    OverAThousand,
    MostJobs,
    /// Its room: for its lists alone, or up to one entry a column of every stretch.
    ExactRoom,
    RoomBetween,
    ByteShortOfEvery,
    RoomForEvery,
    /// Where a stretch lies; past the limit of a row, and past what two bytes count, it
    /// lists something.
    AtStart,
    AtEnd,
    EmptyAtStart,
    EmptyAtEnd,
    EmptyBetween,
    Longest,
    PastLimit,
    PastTwoBytes,
    OpenedLate,
    OpenedAtEnd,
    /// A byte that is no bit lies next to it.
    BadBefore,
    BadBehind,
    /// Against the job before it in the table.
    Repeated,
    Overlaps,
    RightBehind,
    Turned,
    NothingBetween,
    /// The zeros before a frame begin before it; a frame does, or goes on behind it.
    CutZeros,
    CutFrame,
    CutShort,
    /// A bank that it does not know was chosen before it in the recording, or in the list
    /// of the job before.
    BankBefore,
    BankOfJobBefore,
}

use Tabled::*;

/// A table that was read.
pub struct Taken<'a> {
    pub rows: Rows<'a>,
    pub jobs: &'a [Stretch],
    pub lists: Vec<&'a [u8]>,
    pub room: usize,
}

impl Taken<'_> {
    fn of_table(&self) -> [(Tabled, bool); 8] {
        let (jobs, room) = (self.jobs.len(), self.room);
        let needed: usize = self.lists.iter().map(|list| list.len()).sum();
        let every = ENTRY_BYTES * self.jobs.iter().map(|[_, length, _]| length).sum::<usize>();
        [
            (NoJob, jobs == 0),
            (OneJob, jobs == 1),
            (OverAThousand, jobs > 1000),
            (MostJobs, jobs == MOST_JOBS),
            (ExactRoom, needed > 0 && room == needed),
            (RoomBetween, needed > 0 && needed < room && room < every),
            (ByteShortOfEvery, needed > 0 && room + 1 == every),
            (RoomForEvery, needed > 0 && room == every),
        ]
    }

    fn of_stretch(&self, job: usize) -> [(Tabled, bool); 12] {
        let [first, length, opening] = self.jobs[job];
        let (end, columns) = (first + length, self.rows[0].len());
        let (is_empty, lists) = (length == 0, !self.lists[job].is_empty());
        let is_bad = |column: usize| bad_column(self.rows, column);
        [
            (AtStart, !is_empty && first == 0),
            (AtEnd, !is_empty && end == columns),
            (EmptyAtStart, is_empty && first == 0),
            (EmptyAtEnd, is_empty && end == columns),
            (EmptyBetween, is_empty && 0 < first && end < columns),
            (Longest, length == MOST_COLUMNS),
            (PastLimit, lists && first >= MOST_COLUMNS),
            (PastTwoBytes, lists && first > usize::from(u16::MAX)),
            (OpenedLate, lists && opening > 0),
            (OpenedAtEnd, !is_empty && opening == length),
            (BadBefore, first > 0 && is_bad(first - 1)),
            (BadBehind, end < columns && is_bad(end)),
        ]
    }

    /// Against the jobs before and behind it.
    fn of_neighbours(&self, job: usize) -> [(Tabled, bool); 5] {
        let [before, this] = [self.jobs[job - 1], self.jobs[job]];
        let ends = [before, this].map(|[first, length, _]| first + length);
        let shares = before[0].max(this[0]) < ends[0].min(ends[1]);
        let lists = |job: usize| self.lists.get(job).is_some_and(|list| !list.is_empty());
        [
            (Repeated, this == before && this[1] > 0),
            (Overlaps, this != before && shares),
            (RightBehind, this[0] == ends[0] && before[1] > 0 && this[1] > 0),
            (Turned, this[0] < before[0]),
            (NothingBetween, lists(job - 1) && !lists(job) && lists(job + 1)),
        ]
    }

    /// Against what lies around the stretch in the recording.
    fn of_cuts(&self, job: usize, whole: &Whole) -> [(Tabled, bool); 4] {
        let [first, length, _] = self.jobs[job];
        let end = first + length;
        let start = whole.start_from(first);
        let [cut, short] = [first, end].map(|column| whole.entry_from(column));
        [
            (CutZeros, start.is_some_and(|start| start < end && start - first < ZEROS_TO_REST)),
            (CutFrame, cut.is_some_and(|entry| entry.start < first && entry.column < end)),
            (CutShort, short.is_some_and(|entry| first <= entry.start && entry.start < end)),
            (BankBefore, unknown(self.lists[job]).any(|entry| whole.knows_bank(first, entry))),
        ]
    }

    /// A list names no bank of an ID, and the list before it writes its bank register.
    fn bank_of_job_before(&self, job: usize) -> bool {
        let [before, this] = [self.lists[job - 1], self.lists[job]];
        let is_choice = |entry: &[u8], id: u8| {
            entry[KIND] == Kind::Written as u8 && entry[ADDRESS] == BANK_REGISTER && entry[ID] == id
        };
        let chooses = |id: u8| before.chunks(ENTRY_BYTES).any(|entry| is_choice(entry, id));
        unknown(this).any(|entry| chooses(entry[ID]))
    }
}

/// The entries of a list whose bank is not known.
fn unknown(list: &[u8]) -> impl Iterator<Item = &[u8]> {
    let is_unknown =
        |entry: &&[u8]| names_bank(entry[KIND], entry[ADDRESS]) && entry[BANK] == NO_BANK_YET;
    list.chunks(ENTRY_BYTES).filter(is_unknown)
}

/// A whole recording: where its frames start, and its list.
struct Whole {
    starts: Vec<usize>,
    entries: Vec<Entry>,
}

impl Whole {
    fn of(rows: Rows) -> Whole {
        // Beside the stretches a byte may be no bit.
        let [cdm, cds] = rows.map(|row| row.iter().map(|byte| byte & 1).collect::<Vec<u8>>());
        Whole { starts: starts(&cdm), entries: list(&cdm, &cds, 0) }
    }

    /// The first start in a column or behind it.
    fn start_from(&self, column: usize) -> Option<usize> {
        let place = self.starts.partition_point(|&start| start < column);
        self.starts.get(place).copied()
    }

    /// The first entry in a column or behind it.
    fn entry_from(&self, column: usize) -> Option<&Entry> {
        self.entries.get(self.entries.partition_point(|entry| entry.column < column))
    }

    /// Whether it knows the bank of an entry of the stretch from `first` on.
    fn knows_bank(&self, first: usize, entry: &[u8]) -> bool {
        let column = first + column_in(&entry[COLUMN]);
        self.entry_from(column).is_some_and(|same| {
            let has_bank = names_bank(same.kind as u8, same.address);
            same.column == column && has_bank && same.bank != NO_BANK_YET
        })
    }
}

impl Counts {
    pub fn add_table(&mut self, taken: &Taken) {
        self.add_met(taken.of_table());
        let whole = Whole::of(taken.rows);
        for job in 0..taken.jobs.len() {
            self.add_met(taken.of_stretch(job));
            self.add_met(taken.of_cuts(job, &whole));
            if job > 0 {
                self.add_met(taken.of_neighbours(job));
                self.add_met([(BankOfJobBefore, taken.bank_of_job_before(job))]);
            }
        }
    }

    fn add_met<const N: usize>(&mut self, met: [(Tabled, bool); N]) {
        for (met, _) in met.into_iter().filter(|&(_, is_met)| is_met) {
            self.add_one(Count::Table(met));
        }
    }
}

pub fn expected() -> Vec<Count> {
    TABLED.iter().copied().map(Count::Table).collect()
}
