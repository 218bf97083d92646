//! The job that reads two recorded rows into a list.

use super::Calls;
use crate::bench::rows::{self, Rows};
use crate::bench::Timed;
use crate::checks::{banks, commands, gives_up, late_opening, must, starts};
use crate::conditions::{bad_byte, too_long};
use crate::counts::{Count, Counts};
use crate::generate::provoked::{TWO_16, TWO_32};
use crate::generate::recordings::{spoiled_recording, Answers};
use crate::generate::{room, Marks, Provoked, Random};
use crate::job::{fields, Job, Refusals};
use crate::lent::Lent;
use model::entry::{column_in, BANK, COLUMN, ENTRY_BYTES, KIND, START};
use model::list::{list, phases, printed_at_most};
use model::rows::ZEROS_TO_REST;
use model::Outcome::{self, Made};

/// The frame of one entry in so many is opened again, from the entry `first` on.
const ONE_IN: usize = 8;

fields!(Read { opening: usize; cdm: Row, cds: Row, out: Room; answers: Answers, first: usize });

impl Job for Read {
    const REFUSALS: Refusals<Read> = &[
        (5, |case| too_long(&case.cdm, &case.cds)),
        (6, |case| case.cdm.len() != case.cds.len()),
        (7, |case| bad_byte(&case.cdm) || bad_byte(&case.cds)),
        (8, |case| case.opening > case.cdm.len()),
        (9, |case| case.needed_at_least() > case.out.len()),
    ];

    fn make(random: &mut Random, provoked: &Provoked, marks: &mut Marks) -> Read {
        let rows = spoiled_recording(random, provoked);
        let length = rows.cdm.len();
        let within = random.between(0, length);
        let mut opening = random.pick(&[0, 0, 0, 0, 0, 1, within, within, length]).min(length);
        if provoked.has(8) {
            let most = length.max(rows.cds.len());
            let far = random.pick(&[TWO_16, TWO_32, usize::MAX - length]) + within;
            opening = random.pick(&[length + 1, length + 1, most + 1, far]);
        }
        let can_be_read = provoked.none_before(9);
        let entries = if can_be_read { list(&rows.cdm, &rows.cds, opening).len() } else { 10 };
        Read {
            opening,
            cdm: Lent::copy(&rows.cdm),
            cds: Lent::copy(&rows.cds),
            out: room(random, marks, ENTRY_BYTES * entries, provoked.has(9)),
            answers: rows.answers,
            first: random.below(ONE_IN),
        }
    }

    fn call(&mut self, calls: &impl Calls) -> Outcome {
        calls.read(&self.cdm, &self.cds, self.opening, &mut self.out)
    }

    fn check(&self, left: &Read, outcome: Outcome, random: &mut Random) -> Result<(), String> {
        let Made(made) = outcome else { return Ok(()) };
        starts(&self.cdm, left.list(made))?;
        banks(left.list(made))?;
        gives_up(&self.cdm, &self.cds, left.list(made))?;
        commands(&self.cdm, &self.cds, left.list(made))?;
        late_opening(&self.cdm, &self.cds, random)
    }

    fn check_further(
        &self,
        left: &Read,
        outcome: Outcome,
        calls: &impl Calls,
    ) -> Result<(), String> {
        let Made(made) = outcome else { return Ok(()) };
        let list = left.list(made);
        self.reopened(list).try_for_each(|entry| self.open_at_frame(list, entry, calls))
    }

    fn count(&self, left: &Read, made: usize, counts: &mut Counts) {
        let list = left.list(made);
        counts.add_list(self.answers, list);
        for entry in self.reopened(list) {
            let is_past_others = list[START] != entry[START];
            counts.add_reopened(entry[KIND], self.opening > 0, is_past_others);
        }
        let entries = |opening| model::list::list(&self.cdm, &self.cds, opening);
        counts.add_named(&entries(self.opening));
        if self.opening > 0 {
            counts.add_late(&entries(self.opening), &entries(0));
        }
        let met = phases(&self.cdm, &self.cds, self.opening);
        counts.add_phases(Count::ReaderAt, &met);
        counts.add_read_commands(self.answers, [&self.cdm, &self.cds], &entries(self.opening));
    }

    fn roomy(&self) -> Read {
        Read { out: Lent::zeros(ENTRY_BYTES * self.cdm.len()), ..self.clone() }
    }

    fn shown(&self, who: &str, made: usize) -> String {
        let end = made.saturating_mul(ENTRY_BYTES).min(self.out.len());
        format!("list of the {who}:\n{}", printed(&self.out[..end]))
    }

    fn follow_cut(&mut self, from: usize, to: usize) {
        if self.opening > from {
            self.opening -= self.opening.min(to) - from;
        }
    }

    /// Let in sooner, or the frame of an earlier entry opened again.
    fn smaller(&self) -> Vec<Read> {
        let sooner = (0..self.opening.min(32)).map(|opening| Read { opening, ..self.clone() });
        let earlier = (0..self.first).map(|first| Read { first, ..self.clone() });
        sooner.chain(earlier).collect()
    }

    fn timed() -> Vec<Timed<Read>> {
        let timed = |timed: Rows| {
            let cases = timed.rows.iter().map(|cdm| Read::answered_by_one_slave(&timed, cdm));
            Timed::new("read", timed.name, timed.columns(), cases.collect())
        };
        rows::timed(1).into_iter().map(timed).collect()
    }
}

impl Read {
    /// The bytes of the list, or one where there is none.
    fn needed_at_least(&self) -> usize {
        let before_room = &Read::REFUSALS[..Read::REFUSALS.len() - 1];
        if before_room.iter().any(|(_, holds)| holds(self)) {
            return 1;
        }
        ENTRY_BYTES * list(&self.cdm, &self.cds, self.opening).len()
    }

    fn answered_by_one_slave(timed: &Rows, cdm: &[u8]) -> Read {
        Read {
            opening: 0,
            cdm: Lent::copy(cdm),
            cds: Lent::copy(&timed.answered(cdm)),
            out: Lent::zeros(ENTRY_BYTES * cdm.len()),
            answers: Answers::Honest,
            first: 0,
        }
    }

    /// The list of so many entries that a call left.
    fn list(&self, made: usize) -> &[u8] {
        &self.out[..ENTRY_BYTES * made]
    }

    /// The entries of its list whose frames are opened again.
    fn reopened<'a>(&self, list: &'a [u8]) -> impl Iterator<Item = &'a [u8]> {
        list.chunks(ENTRY_BYTES).skip(self.first).step_by(ONE_IN)
    }

    /// A reader let in fourteen columns before an entry's start lists that entry too,
    /// and just what the list has from its frame on; its banks are those of its own list.
    fn open_at_frame(&self, list: &[u8], entry: &[u8], calls: &impl Calls) -> Result<(), String> {
        let start = column_in(&entry[START]);
        let wanted = from_column(list, start);
        let mut again = Read { opening: start - ZEROS_TO_REST, ..self.clone() };
        let outcome = again.call(calls);
        let told = |what: &str| format!("opened for {entry:?} at {}: {what}", again.opening);
        let made = wanted.len() / ENTRY_BYTES;
        must(outcome == Made(made), &told(&format!("{made} entries, not {outcome:?}")))?;
        let bare_list = bare(again.list(made));
        let is_listed = bare_list.chunks(ENTRY_BYTES).any(|other| other == bare(entry));
        must(is_listed, &told("the entry is listed"))?;
        must(bare_list == bare(&wanted), &told("the list from its frame on, but for the bank"))?;
        banks(again.list(made)).map_err(|wrong| told(&wrong))?;
        let (behind, before) = (&again.out[wanted.len()..], &self.out[wanted.len()..]);
        let is_kept = behind == before && again.out.touched_guard().is_none();
        must(is_kept, &told("bytes past the list stay"))
    }
}

/// The entries of a list that lie in a column or behind it.
fn from_column(list: &[u8], column: usize) -> Vec<u8> {
    let is_behind = |entry: &&[u8]| column_in(&entry[COLUMN]) >= column;
    list.chunks(ENTRY_BYTES).filter(is_behind).flatten().copied().collect()
}

/// A list without its banks.
fn bare(list: &[u8]) -> Vec<u8> {
    let mut bare = list.to_vec();
    bare.chunks_mut(ENTRY_BYTES).for_each(|entry| entry[BANK] = 0);
    bare
}

pub fn printed(list: &[u8]) -> String {
    let mut text = vec![0; printed_at_most(list.len() / ENTRY_BYTES)];
    match model::list_to_text(list, &mut text) {
        Made(bytes) => String::from_utf8_lossy(&text[..bytes]).to_string(),
        _ => format!("{list:?}\n"),
    }
}
