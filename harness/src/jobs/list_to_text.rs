//! The job that prints a list.

use super::Calls;
use crate::bench::rows::{self, Rows};
use crate::bench::Timed;
use crate::counts::{Count, Counts};
use crate::generate::lists::{list_bytes, spoil_list, LIST_SPOILS};
use crate::generate::{room, Marks, Provoked, Random};
use crate::job::{fields, Job, Refusals};
use crate::lent::Lent;
use model::entry::{ENTRY_BYTES, KIND};
use model::list::printed_at_most;
use model::Outcome::{self, Made};

fields!(ListToText { ; list: List, out: Room });

impl Job for ListToText {
    const REFUSALS: Refusals<ListToText> = &[
        (12, |case| case.is_ragged() || case.kinds().any(|kind| !(1..=20).contains(&kind))),
        (9, |case| printed_bytes(&case.list).unwrap_or(1) > case.out.len()),
    ];

    fn marks() -> Marks {
        LIST_SPOILS.to_vec()
    }

    fn make(random: &mut Random, provoked: &Provoked, marks: &mut Marks) -> ListToText {
        let mut list = list_bytes(random);
        let needed = printed_bytes(&list).expect("all kinds are within 1 to 20");
        if provoked.has(12) {
            marks.extend(spoil_list(random, &mut list));
        }
        let out = room(random, marks, needed, provoked.has(9));
        ListToText { list: Lent::copy(&list), out }
    }

    fn call(&mut self, calls: &impl Calls) -> Outcome {
        calls.list_to_text(&self.list, &mut self.out)
    }

    fn count(&self, _: &ListToText, _: usize, counts: &mut Counts) {
        self.kinds().for_each(|kind| counts.add_one(Count::Printed(kind)));
    }

    fn shown(&self, who: &str, made: usize) -> String {
        let text = String::from_utf8_lossy(&self.out[..made.min(self.out.len())]);
        format!("text of the {who}:\n{text}")
    }

    /// Its columns are the printed bytes.
    fn timed() -> Vec<Timed<ListToText>> {
        let timed = |timed: Rows| {
            let cases: Vec<_> =
                timed.rows.iter().map(|cdm| ListToText::of_one_slave(&timed, cdm)).collect();
            let entries = cases.iter().map(|case| case.kinds().count()).sum::<usize>();
            let bytes = cases.iter().map(|case| case.out.len()).sum();
            Timed::new(&format!("list, {}", entries / cases.len()), timed.name, bytes, cases)
        };
        let is_timed =
            |timed: &Rows| ["dense", "varied", "banks", "commands"].contains(&timed.name);
        rows::timed(1).into_iter().filter(is_timed).map(timed).collect()
    }
}

impl ListToText {
    fn is_ragged(&self) -> bool {
        !self.list.len().is_multiple_of(ENTRY_BYTES)
    }

    /// The kinds of its entries.
    fn kinds(&self) -> impl Iterator<Item = u8> + '_ {
        self.list.chunks_exact(ENTRY_BYTES).map(|entry| entry[KIND])
    }

    /// The list of a row that one slave answered.
    fn of_one_slave(timed: &Rows, cdm: &[u8]) -> ListToText {
        let list = timed.listed(cdm);
        let bytes = printed_bytes(&list).expect("a list that was read");
        ListToText { list: Lent::copy(&list), out: Lent::zeros(bytes) }
    }
}

/// The bytes of a list's text, if it has one.
fn printed_bytes(list: &[u8]) -> Option<usize> {
    let mut ample = vec![0; printed_at_most(list.len() / ENTRY_BYTES)];
    match model::list_to_text(list, &mut ample) {
        Made(bytes) => Some(bytes),
        _ => None,
    }
}
