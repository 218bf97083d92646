//! "A row is fourteen zeros and one frame."

use super::check::{check_bits, command_word, register_word, BYTE_BITS, HEADER_BITS};
use super::rows::{MOST_COLUMNS, ZEROS_TO_REST};
use super::Outcome::{self, Made, Refused};

const MOST_BYTES: usize = 64;

/// Puts bits into a row, one column after the other.
struct Pen<'a> {
    row: &'a mut [u8],
    column: usize,
}

impl Pen<'_> {
    /// The lowest `width` bits of `word`, highest first.
    fn put(&mut self, word: u16, width: u32) {
        for place in (0..width).rev() {
            self.row[self.column] = (word >> place & 1) as u8;
            self.column += 1;
        }
    }

    /// Fourteen zeros, S and the header with its check bits.
    fn put_header(&mut self, word: u16) {
        self.put(0, ZEROS_TO_REST as u32);
        self.put(1, 1);
        self.put(word, HEADER_BITS);
        self.put(u16::from(check_bits(word, HEADER_BITS)), 4);
    }

    /// S, and S again that often.
    fn put_start(&mut self, repeats: u8) {
        for _ in 0..=repeats {
            self.put(1, 1);
        }
    }
}

fn is_bad_access(id: u8, address: u8, count: usize) -> bool {
    id > 7
        || address > 127
        || count == 0
        || count > MOST_BYTES
        || usize::from(address) + count > 128
}

/// 5, "when the row would pass 4,096 columns", and 9.
fn refusal_of_length(columns: usize, out: &[u8]) -> Option<u8> {
    if columns > MOST_COLUMNS {
        return Some(5);
    }
    (out.len() < columns).then_some(9)
}

/// "Repeats S that often at every byte that waits."
pub fn build_read(id: u8, address: u8, count: usize, wait: u8, out: &mut [u8]) -> Outcome {
    if is_bad_access(id, address, count) {
        return Refused(10);
    }
    let columns = 32 + (14 + usize::from(wait)) * count;
    if let Some(number) = refusal_of_length(columns, out) {
        return Refused(number);
    }
    let mut pen = Pen { row: out, column: 0 };
    pen.put_header(register_word(id, address));
    pen.put(0b10, 2);
    for _ in 0..count {
        pen.put_start(wait);
        pen.put(0, 12);
        pen.put(0, 1);
    }
    Made(pen.column)
}

/// "At every byte that waits, so not at the first of a write."
pub fn build_write(id: u8, address: u8, bytes: &[u8], wait: u8, out: &mut [u8]) -> Outcome {
    if is_bad_access(id, address, bytes.len()) {
        return Refused(10);
    }
    let columns = 32 + 14 * bytes.len() + usize::from(wait) * (bytes.len() - 1);
    if let Some(number) = refusal_of_length(columns, out) {
        return Refused(number);
    }
    let mut pen = Pen { row: out, column: 0 };
    pen.put_header(register_word(id, address));
    pen.put(0b01, 2);
    for (n, &byte) in bytes.iter().enumerate() {
        let data = u16::from(byte);
        pen.put_start(if n == 0 { 0 } else { wait });
        pen.put(data, BYTE_BITS);
        pen.put(u16::from(check_bits(data, BYTE_BITS)), 4);
        pen.put(0, 1);
    }
    Made(pen.column)
}

/// Behind the header S; of an addressed command the columns of IDA1 to IDA7, 0; and EX.
pub fn build_command(ids: u8, cmd: u8, execute: bool, out: &mut [u8]) -> Outcome {
    if cmd > 3 {
        return Refused(10);
    }
    let answers = if ids == 0 { 0 } else { 7 };
    if out.len() < 30 + 1 + answers + 1 {
        return Refused(9);
    }
    let mut pen = Pen { row: out, column: 0 };
    pen.put_header(command_word(ids, cmd));
    pen.put(1, 1);
    pen.put(0, answers as u32);
    pen.put(u16::from(execute), 1);
    Made(pen.column)
}
