//! Rows to and from text: "one column a line".

use super::rows::{refusal_of_rows, MOST_COLUMNS};
use super::Fault;
use super::Outcome::{self, InText, Made, Refused};

pub const ROWS_HEADER: &[u8] = b"cdm\tcds\n";
const COLUMN_BYTES: usize = 4;

/// The number of a wrong byte in the header line.
fn wrong_in_header(byte: usize, found: u8) -> Option<u8> {
    (found != ROWS_HEADER[byte]).then_some(13)
}

/// The number of a wrong byte in a column's line.
fn wrong_in_column(byte: usize, found: u8) -> Option<u8> {
    match (byte, found) {
        (0 | 2, b'0' | b'1') | (1, b'\t') | (3, b'\n') => None,
        (0 | 2, _) => Some(14),
        (1, _) => Some(15),
        _ => Some(16),
    }
}

/// Judges the nth line, which has to have so many bytes: its first bad byte
/// decides, and one that stops early is bad just past its end.
fn judge(
    nth: usize,
    line: &[u8],
    length: usize,
    wrong: impl Fn(usize, u8) -> Option<u8>,
) -> Result<(), Fault> {
    for byte in 0..length {
        let number = match line.get(byte) {
            None => Some(17),
            Some(&found) => wrong(byte, found),
        };
        if let Some(number) = number {
            return Err(Fault { number, line: nth, byte });
        }
    }
    Ok(())
}

/// The two digits of a column's line, if it is one.
fn column(line: &[u8]) -> Option<(u8, u8)> {
    match line {
        [a @ (b'0' | b'1'), b'\t', b @ (b'0' | b'1'), b'\n'] => Some((a - b'0', b - b'0')),
        _ => None,
    }
}

/// The columns of a text, or what is wrong with it.
fn columns(text: &[u8]) -> Result<Vec<(u8, u8)>, Fault> {
    if text.is_empty() {
        return Err(Fault { number: 13, line: 1, byte: 0 });
    }
    let (header, below) = text.split_at(text.len().min(ROWS_HEADER.len()));
    judge(1, header, ROWS_HEADER.len(), wrong_in_header)?;
    let mut found = Vec::new();
    for (after_header, line) in below.chunks(COLUMN_BYTES).enumerate() {
        match column(line) {
            Some(digits) => found.push(digits),
            None => {
                judge(after_header + 2, line, COLUMN_BYTES, wrong_in_column)?;
                unreachable!("a line with nothing wrong is a column");
            }
        }
    }
    Ok(found)
}

/// The job text to rows.
pub fn text_to_rows(text: &[u8], cdm: &mut [u8], cds: &mut [u8]) -> Outcome {
    let columns = match columns(text) {
        Ok(columns) => columns,
        Err(fault) => return InText(fault),
    };
    if columns.len() > MOST_COLUMNS {
        return Refused(5);
    }
    if cdm.len() < columns.len() || cds.len() < columns.len() {
        return Refused(9);
    }
    for (place, &(first, second)) in columns.iter().enumerate() {
        cdm[place] = first;
        cds[place] = second;
    }
    Made(columns.len())
}

/// The job rows to text.
pub fn rows_to_text(cdm: &[u8], cds: &[u8], out: &mut [u8]) -> Outcome {
    if let Some(number) = refusal_of_rows(cdm, cds) {
        return Refused(number);
    }
    let mut text = ROWS_HEADER.to_vec();
    for (a, b) in cdm.iter().zip(cds) {
        text.extend_from_slice(&[b'0' + a, b'\t', b'0' + b, b'\n']);
    }
    if out.len() < text.len() {
        return Refused(9);
    }
    out[..text.len()].copy_from_slice(&text);
    Made(text.len())
}
