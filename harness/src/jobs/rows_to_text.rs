//! The job rows to text.

use super::Calls;
use crate::bench::{rows, Timed};
use crate::checks::must;
use crate::conditions::{bad_byte, too_long};
use crate::generate::recordings::spoiled_recording;
use crate::generate::{room, Marks, Provoked, Random};
use crate::job::{fields, Job, Refusals};
use crate::lent::Lent;
use model::Outcome::{self, Made};

fields!(RowsToText { ; cdm: Row, cds: Row, out: Room });

impl Job for RowsToText {
    const REFUSALS: Refusals<RowsToText> = &[
        (5, |case| too_long(&case.cdm, &case.cds)),
        (6, |case| case.cdm.len() != case.cds.len()),
        (7, |case| bad_byte(&case.cdm) || bad_byte(&case.cds)),
        (9, |case| 8 + 4 * case.cdm.len() > case.out.len()),
    ];

    fn make(random: &mut Random, provoked: &Provoked, marks: &mut Marks) -> RowsToText {
        let rows = spoiled_recording(random, provoked);
        RowsToText {
            out: room(random, marks, 8 + 4 * rows.cdm.len(), provoked.has(9)),
            cdm: Lent::copy(&rows.cdm),
            cds: Lent::copy(&rows.cds),
        }
    }

    fn call(&mut self, calls: &impl Calls) -> Outcome {
        calls.rows_to_text(&self.cdm, &self.cds, &mut self.out)
    }

    fn check(&self, left: &RowsToText, outcome: Outcome, _: &mut Random) -> Result<(), String> {
        let Made(bytes) = outcome else { return Ok(()) };
        let columns = self.cdm.len();
        let (mut cdm, mut cds) = (vec![9; columns], vec![9; columns]);
        let outcome = model::text_to_rows(&left.out[..bytes], &mut cdm, &mut cds);
        must(outcome == Made(columns), "written rows can be read")?;
        let unchanged = cdm == self.cdm[..] && cds == self.cds[..];
        must(unchanged, "rows go to text and back unchanged")
    }

    fn shown(&self, who: &str, made: usize) -> String {
        let text = String::from_utf8_lossy(&self.out[..made.min(self.out.len())]);
        format!("text of the {who}:\n{text}")
    }

    fn timed() -> Vec<Timed<RowsToText>> {
        let timed = |columns| {
            let row = Lent::copy(&rows::dense(columns));
            let out = Lent::zeros(8 + 4 * columns);
            let case = RowsToText { cdm: row.clone(), cds: row, out };
            Timed::new("rows_to_text", "-", columns, vec![case])
        };
        rows::LENGTHS.map(timed).into()
    }
}
