//! The job text to rows.

use super::Calls;
use crate::bench::{rows, Timed};
use crate::checks::must;
use crate::conditions::fault;
use crate::generate::texts::{damage, lengthen, text, DAMAGES};
use crate::generate::{room, Marks, Provoked, Random};
use crate::job::{fields, Exclusive, Job, Refusals};
use crate::lent::Lent;
use model::Outcome::{self, InText, Made};

/// What a text is marked with.
const COLUMNS: [&str; 5] =
    ["header alone", "some columns", "4096 columns", "4097 columns", "more columns"];

fields!(TextToRows { ; text: Text, cdm: Room, cds: Room });

impl Job for TextToRows {
    /// The first bad byte decides.
    const EXCLUSIVE: Exclusive<TextToRows> =
        (&[13, 14, 15, 16, 17], |case| fault(&case.text).map(|fault| fault.number));

    const REFUSALS: Refusals<TextToRows> = &[
        (5, |case| case.columns() > 4096),
        (9, |case| case.columns() > case.cdm.len().min(case.cds.len())),
    ];

    fn marks() -> Marks {
        [&COLUMNS[..], &DAMAGES].concat()
    }

    fn make(random: &mut Random, provoked: &Provoked, marks: &mut Marks) -> TextToRows {
        let (mut text, mut columns) = text(random);
        if provoked.has(5) {
            columns = lengthen(random, &mut text);
        }
        marks.push(match columns {
            0 => "header alone",
            1..=4095 => "some columns",
            4096 => "4096 columns",
            4097 => "4097 columns",
            _ => "more columns",
        });
        // For 13 to 17: `damage` draws which.
        if provoked.has(13) {
            marks.extend(damage(random, &mut text));
        }
        let which = random.below(3);
        let cdm = room(random, marks, columns, provoked.has(9) && which != 0);
        let cds = room(random, marks, columns, provoked.has(9) && which != 1);
        TextToRows { text: Lent::copy(&text), cdm, cds }
    }

    fn call(&mut self, calls: &impl Calls) -> Outcome {
        calls.text_to_rows(&self.text, &mut self.cdm, &mut self.cds)
    }

    fn check(&self, left: &TextToRows, outcome: Outcome, _: &mut Random) -> Result<(), String> {
        match outcome {
            InText(told) => must(fault(&self.text) == Some(told), "the first bad byte"),
            Made(columns) => self.check_way_back(&left.cdm[..columns], &left.cds[..columns]),
            _ => Ok(()),
        }
    }

    fn timed() -> Vec<Timed<TextToRows>> {
        let timed = |columns| {
            let cdm = rows::dense(columns);
            let room = || Lent::zeros(columns);
            let text = Lent::copy(&rows::text(&cdm, &cdm));
            let case = TextToRows { text, cdm: room(), cds: room() };
            Timed::new("text_to_rows", "-", columns, vec![case])
        };
        rows::LENGTHS.map(timed).into()
    }
}

impl TextToRows {
    fn columns(&self) -> usize {
        self.text.len().saturating_sub(8) / 4
    }

    fn check_way_back(&self, cdm: &[u8], cds: &[u8]) -> Result<(), String> {
        let mut text = vec![0; self.text.len()];
        let outcome = model::rows_to_text(cdm, cds, &mut text);
        must(outcome == Made(text.len()), "read rows can be written")?;
        must(text == self.text[..], "text goes to rows and back unchanged")
    }
}
