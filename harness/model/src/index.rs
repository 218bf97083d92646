//! The indexing program: two rows as text in, and out their list as text or
//! the line of a refusal.

use super::entry::ENTRY_BYTES;
use super::list::printed_at_most;
use super::rows::MOST_COLUMNS;
use super::Outcome::{InText, Made, Refused};
use super::{list_to_text, read, text_to_rows, Fault};

/// What the program prints.
pub fn index(text: &[u8], opening: usize) -> Vec<u8> {
    let (mut cdm, mut cds) = (vec![0; MOST_COLUMNS], vec![0; MOST_COLUMNS]);
    let columns = match text_to_rows(text, &mut cdm, &mut cds) {
        Made(columns) => columns,
        Refused(number) => return format!("refused\t{number}\n").into_bytes(),
        InText(Fault { number, line, byte }) => {
            return format!("refused\t{number}\t{line}\t{byte}\n").into_bytes();
        }
        other => panic!("text to rows answered {other:?}"),
    };
    let mut list = vec![0; ENTRY_BYTES * MOST_COLUMNS];
    let entries = match read(&cdm[..columns], &cds[..columns], opening, &mut list) {
        Made(entries) => entries,
        Refused(number) => return format!("refused\t{number}\n").into_bytes(),
        other => panic!("read answered {other:?}"),
    };
    let mut printed = vec![0; printed_at_most(entries)];
    match list_to_text(&list[..ENTRY_BYTES * entries], &mut printed) {
        Made(bytes) => printed.truncate(bytes),
        other => panic!("the list of an admitted text was refused: {other:?}"),
    }
    printed
}
