//! Codes and lists of the library, read and worded by its wrapper; and the wrapper's
//! words and numbers against those of `include/biss.h` and of the model.

use super::Card;
use crate::library::biss::{self, answer, Answer, Refusal};
use model::entry::{ADDRESS, BANK, COLUMN, ENTRY_BYTES, ID, KIND, NO_BANK_YET, START, VALUE};
use model::frame::{self, BANK_REGISTER, LAST_HEADER};
use model::list::printed_at_most;
use model::rows::{MOST_COLUMNS, ZEROS_TO_REST};

const BISS_H: &str = include_str!("../../../include/biss.h");

pub fn tried(card: &mut Card) {
    codes(card);
    words(card);
    layout(card);
    entries(card);
}

/// Fourteen zeros, S and the header.
const COMMAND_HEADER: usize = ZEROS_TO_REST + 1 + LAST_HEADER as usize;
const REFUSED: u64 = 1 << 63;
const LINE: u64 = 512;
const BYTE: u64 = 64;
const LAST_LINE: usize = (1 << 53) - 1;
const OF_JOB: u64 = REFUSED + (1 << 62);
const JOB: u64 = 64;
const LAST_JOB: usize = (1 << 56) - 1;

/// Codes put together by hand, and what they say.
const CODES: [(u64, Answer); 16] = [
    (0, Ok(0)),
    (46, Ok(46)),
    (REFUSED - 1, Ok((1 << 63) - 1)),
    (REFUSED + 1, Err(Refusal::Number(1))),
    (REFUSED + 19, Err(Refusal::Number(19))),
    (REFUSED + 63, Err(Refusal::Number(63))),
    (REFUSED + LINE + 13, in_text(13, 1, 0)),
    (REFUSED + 47 * LINE + 2 * BYTE + 14, in_text(14, 47, 2)),
    (REFUSED + 812 * LINE + BYTE + 15, in_text(15, 812, 1)),
    (REFUSED + LINE + 7 * BYTE + 17, in_text(17, 1, 7)),
    (REFUSED + LAST_LINE as u64 * LINE + 3 * BYTE + 16, in_text(16, LAST_LINE, 3)),
    (REFUSED + 32, Err(Refusal::Number(32))),
    (OF_JOB + 20, of_job(20, 0)),
    (OF_JOB + JOB + 5, of_job(5, 1)),
    (OF_JOB + 2999 * JOB + 8, of_job(8, 2999)),
    (OF_JOB + LAST_JOB as u64 * JOB + 7, of_job(7, LAST_JOB)),
];

const fn in_text(number: u8, line: usize, byte: usize) -> Answer {
    Err(Refusal::InText { number, line, byte })
}

const fn of_job(number: u8, job: usize) -> Answer {
    Err(Refusal::OfJob { number, job })
}

fn codes(card: &mut Card) {
    for (code, wanted) in CODES {
        card.same(&format!("the code {code:x}"), answer(code), wanted);
    }
    let tab = Refusal::InText { number: 15, line: 812, byte: 1 };
    card.same("a tab", tab.to_string().as_str(), "line 812, byte 1: tab missing");
    card.same("a tab has no job", tab.job(), None);
    let outside = Refusal::OfJob { number: 20, job: 0 };
    card.same("a job", outside.to_string().as_str(), "job 0: a stretch outside the rows");
    card.same("its number and itself", (outside.number(), outside.job()), (20, Some(0)));
}

/// The wrapper has the words of the table in biss.h; 11 is given no more, 22 to 31 are not
/// given yet.
fn words(card: &mut Card) {
    for number in 1..=33 {
        let row = format!(" {number:>2}  {}", Refusal::Number(number));
        let is_given = !matches!(number, 11 | 22..=31 | 33);
        card.same(&row, BISS_H.contains(&row), is_given);
    }
}

/// The numbers that biss.h names, and the wrapper's, are the model's.
fn layout(card: &mut Card) {
    let line = printed_at_most(1) - printed_at_most(0);
    card.same("bytes of an entry", biss::ENTRY_BYTES, ENTRY_BYTES);
    card.same("columns of a row", biss::MOST_COLUMNS, MOST_COLUMNS);
    card.same("bytes of a list's header", biss::LIST_HEADER_BYTES, printed_at_most(0));
    card.same("bytes of the longest line", biss::LIST_LINE_BYTES, line);
    card.same("zeros before S", biss::REST, ZEROS_TO_REST);
    card.same("the bank register", biss::BANK_REGISTER, BANK_REGISTER);
    card.same("no bank yet", biss::NO_BANK_YET, NO_BANK_YET);
    card.same("counts of a slave", biss::CMDS, frame::CODES);
    card.same("columns of a command's header", biss::COMMAND_HEADER, COMMAND_HEADER);
    let named = [
        ("KIND", KIND),
        ("COLUMN", COLUMN.start),
        ("START", START.start),
        ("ID", ID),
        ("ADDRESS", ADDRESS),
        ("BANK", BANK),
        ("VALUE", VALUE),
        ("ENTRY_BYTES", ENTRY_BYTES),
        ("REST", ZEROS_TO_REST),
        ("BANK_REGISTER", BANK_REGISTER.into()),
        ("NO_BANK_YET", NO_BANK_YET.into()),
        ("CMDS", frame::CODES),
        ("COMMAND_HEADER", COMMAND_HEADER),
        ("LIST_HEADER_BYTES", printed_at_most(0)),
        ("LIST_LINE_BYTES", line),
    ];
    let words: Vec<&str> = BISS_H.split([' ', ',', '\n']).filter(|word| !word.is_empty()).collect();
    for (name, number) in named {
        let [name, number] = [format!("BISS_{name}"), number.to_string()];
        let is_named = words.windows(3).any(|three| three == [&name, "=", &number]);
        card.same(&format!("{name} = {number}"), is_named, true);
    }
}

/// The wrapper takes a list apart into its entries, and puts them together again.
fn entries(card: &mut Card) {
    let list = [[11, 2, 16, 1, 242, 3, 16, 2, 90], [15, 15, 255, 15, 14, 0, 0, 0, 0]].concat();
    let wanted = vec![
        biss::Entry { kind: 11, column: 528, start: 498, id: 3, address: 16, bank: 2, value: 90 },
        biss::Entry { kind: 15, column: 4095, start: 3854, id: 0, address: 0, bank: 0, value: 0 },
    ];
    let again: Vec<u8> = wanted.iter().flat_map(|entry| entry.bytes()).collect();
    card.same("entries of a list", biss::entries(&list).collect(), wanted);
    card.same("their bytes", again, list);
}
