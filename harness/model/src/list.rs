//! Lists: the reading of two rows, and the printing of a list.

use super::entry::{
    column_in, names_bank, Entry, ADDRESS, BANK, COLUMN, ENTRY_BYTES, FORMS, ID, KIND, START, VALUE,
};
use super::phase::Met;
use super::reader::Reader;
use super::rows::refusal_of_rows;
use super::Outcome::{self, Made, Refused};

const LIST_HEADER: &str = "event\tcolumn\tstart\tid\taddress\tbank\tvalue\n";

/// A kind of at most eight letters, two numbers of at most five digits and three of
/// at most three, six tabs and a line feed; and an address of two digits, for one of
/// three has no bank.
const LONGEST_LINE: usize = 8 + 2 * 5 + 3 * 3 + 2 + 6 + 1;

/// The most bytes that the text of a list of so many entries can have.
pub fn printed_at_most(entries: usize) -> usize {
    LIST_HEADER.len() + LONGEST_LINE * entries
}

/// The list of a reader let in at column `opening`, which knows nothing of the
/// columns before it.
pub fn list(cdm: &[u8], cds: &[u8], opening: usize) -> Vec<Entry> {
    let mut reader = Reader::let_in();
    let mut entries = Vec::new();
    for column in opening..cdm.len() {
        if let Some(entry) = reader.step(column, cdm[column], cds[column]) {
            entries.push(entry);
        }
    }
    entries
}

/// The phases that this reader meets.
pub fn phases(cdm: &[u8], cds: &[u8], opening: usize) -> Met {
    let mut reader = Reader::let_in();
    let mut met = Met::none();
    for column in opening..cdm.len() {
        met.meet(reader.phase());
        reader.step(column, cdm[column], cds[column]);
    }
    met
}

/// The job read.
pub fn read(cdm: &[u8], cds: &[u8], opening: usize, out: &mut [u8]) -> Outcome {
    if let Some(number) = refusal_of_rows(cdm, cds) {
        return Refused(number);
    }
    if opening > cdm.len() {
        return Refused(8);
    }
    let entries = list(cdm, cds, opening);
    if out.len() < ENTRY_BYTES * entries.len() {
        return Refused(9);
    }
    for (place, entry) in out.chunks_exact_mut(ENTRY_BYTES).zip(&entries) {
        place.copy_from_slice(&entry.bytes());
    }
    Made(entries.len())
}

fn field(is_named: bool, value: u8) -> String {
    if is_named {
        value.to_string()
    } else {
        "-".to_string()
    }
}

fn line(entry: &[u8]) -> String {
    let form = &FORMS[usize::from(entry[KIND]) - 1];
    let column = column_in(&entry[COLUMN]);
    let start = column_in(&entry[START]);
    let id = field(form.id, entry[ID]);
    let address = field(form.address, entry[ADDRESS]);
    let bank = field(names_bank(entry[KIND], entry[ADDRESS]), entry[BANK]);
    let value = field(form.value, entry[VALUE]);
    format!("{}\t{column}\t{start}\t{id}\t{address}\t{bank}\t{value}\n", form.name)
}

/// The job that prints a list.
pub fn list_to_text(list: &[u8], out: &mut [u8]) -> Outcome {
    let entries = list.chunks_exact(ENTRY_BYTES);
    let has_bad_kind =
        entries.clone().any(|entry| !(1..=FORMS.len()).contains(&usize::from(entry[KIND])));
    if !entries.remainder().is_empty() || has_bad_kind {
        return Refused(12);
    }
    let mut text = LIST_HEADER.to_string();
    entries.for_each(|entry| text.push_str(&line(entry)));
    if out.len() < text.len() {
        return Refused(9);
    }
    out[..text.len()].copy_from_slice(text.as_bytes());
    Made(text.len())
}
