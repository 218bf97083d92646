//! The bench card of paper 01, tried on the model, starts, judged by the conditions,
//! slow memories, banks, commands and tables of jobs.

mod banks;
mod commands;
mod tables;
mod waits;
mod wrapper;

use crate::conditions::has_its_start;
use model::account::account;
use model::check::{check_bits, command_word, register_word, BYTE_BITS, HEADER_BITS};
use model::entry::{Entry, Kind, ENTRY_BYTES};
use model::list::{list, printed_at_most};
use model::Outcome::{self, InText, Made, Refused};
use model::{
    build_command, build_read, build_write, list_to_text, read, rows_to_text, run, text_to_rows,
    Fault,
};

/// Collects what failed.
struct Card {
    tried: usize,
    failed: Vec<String>,
}

impl Card {
    fn same<T: PartialEq + std::fmt::Debug>(&mut self, what: &str, got: T, wanted: T) {
        self.tried += 1;
        if got != wanted {
            self.failed.push(format!("{what}: got {got:?}, wanted {wanted:?}"));
        }
    }
}

/// How many values were tried, and the failures.
pub fn selftest() -> (usize, Vec<String>) {
    let mut card = Card { tried: 0, failed: Vec::new() };
    check_values(&mut card);
    locks(&mut card);
    worked_run(&mut card);
    starts(&mut card);
    start_conditions(&mut card);
    other_runs(&mut card);
    limits(&mut card);
    easy_errors(&mut card);
    easy_answers(&mut card);
    texts(&mut card);
    long_texts(&mut card);
    lists(&mut card);
    waits::tried(&mut card);
    banks::tried(&mut card);
    commands::tried(&mut card);
    tables::tried(&mut card);
    wrapper::tried(&mut card);
    (card.tried, card.failed)
}

/// The check bits of the card: of bytes, of register accesses by ID and address, of
/// broadcasts.
pub const BYTES: [(u16, u8); 5] = [(0x00, 0xF), (0x01, 0xC), (0x80, 0x1), (0xFF, 0xB), (0x5A, 0x0)];
pub const ACCESSES: [(u8, u8, u8); 5] =
    [(0, 0x00, 0x6), (0, 0x44, 0xD), (1, 0x41, 0xC), (0, 0x7C, 0x9), (7, 0x7F, 0x0)];
pub const BROADCASTS: [(u8, u8); 2] = [(2, 0x9), (0, 0xF)];

fn check_values(card: &mut Card) {
    for (byte, check) in BYTES {
        card.same(&format!("check of byte {byte:02X}"), check_bits(byte, BYTE_BITS), check);
    }
    for (id, address, check) in ACCESSES {
        let got = check_bits(register_word(id, address), HEADER_BITS);
        card.same(&format!("check of ID {id} address {address:02X}"), got, check);
    }
    for (cmd, check) in BROADCASTS {
        let got = check_bits(command_word(0, cmd), HEADER_BITS);
        card.same(&format!("check of broadcast CMD {cmd}"), got, check);
    }
}

fn built_read(id: u8, address: u8, count: usize) -> Vec<u8> {
    let mut row = vec![0; 32 + 14 * count];
    build_read(id, address, count, 0, &mut row);
    row
}

/// Answers of a chain of one bank a slave, with all rights 3 and the given registers.
fn answers(slaves: usize, registers: &mut [u8], cdm: &[u8]) -> Vec<u8> {
    let mut cds = vec![0; cdm.len()];
    let (banks, rights, waits) = (vec![1; slaves], vec![3; 128 * slaves], vec![0; slaves]);
    let counts = &mut vec![0; 4 * slaves];
    let outcome = run(slaves, &banks, &rights, &waits, registers, counts, cdm, &mut cds);
    assert_eq!(outcome, Made(cdm.len()));
    cds
}

fn locks(card: &mut Card) {
    for (slaves, lock) in [(0, 0), (1, 1), (8, 8), (9, 9), (16, 9)] {
        let cdm = built_read(0, 0, 1);
        let cds = answers(slaves, &mut vec![0; 128 * slaves], &cdm);
        let first = list(&cdm, &cds, 0).first().copied();
        let wanted = Some(Entry::of(Kind::Lock).at(23).start(14).value(lock));
        card.same(&format!("locks of {slaves} slaves"), first, wanted);
    }
}

/// Prints the list of two rows as the indexing program does.
fn printed(cdm: &[u8], cds: &[u8]) -> String {
    let mut entries = vec![0; ENTRY_BYTES * cdm.len()];
    let Made(made) = read(cdm, cds, 0, &mut entries) else { return "refused".to_string() };
    let mut text = vec![0; printed_at_most(made)];
    let Made(length) = list_to_text(&entries[..ENTRY_BYTES * made], &mut text) else {
        return "refused".to_string();
    };
    String::from_utf8_lossy(&text[..length]).to_string()
}

fn worked_run(card: &mut Card) {
    let mut registers = vec![0; 128];
    registers[0x44] = 0x5A;
    let mut cdm = built_read(0, 0x44, 1);
    card.same("columns of the built read", cdm.len(), 46);
    cdm.push(0);
    let cds = answers(1, &mut registers, &cdm);
    let header = "event\tcolumn\tstart\tid\taddress\tbank\tvalue\n";
    let without_end = format!("{header}lock\t23\t14\t-\t-\t-\t1\nread\t44\t14\t0\t68\t-\t90\n");
    let whole = format!("{without_end}end\t46\t14\t-\t-\t-\t-\n");
    card.same("the worked run", printed(&cdm, &cds), whole);
    card.same("last column taken off", printed(&cdm[..46], &cds[..46]), without_end);
    let late = answers(1, &mut registers, &cdm[1..]);
    card.same("thirteen zeros before S", printed(&cdm[1..], &late), header.to_string());
    card.same("thirteen zeros: no answer", late.contains(&1), false);
}

/// Two frames, their S in columns 14 and 60, and the answers of one slave.
fn two_frames() -> (Vec<u8>, Vec<u8>) {
    let cdm = [&built_read(0, 0x44, 1)[..], &built_read(0, 0x44, 1), &[0]].concat();
    let cds = answers(1, &mut [0; 128], &cdm);
    (cdm, cds)
}

/// Counted from the start of the row, wherever the reader was let in.
fn starts(card: &mut Card) {
    let (cdm, cds) = two_frames();
    let first = [(23, 14), (44, 14), (46, 14)];
    let second = [(69, 60), (90, 60), (92, 60)];
    let both = [first, second].concat();
    let starts = |entries: Vec<Entry>| -> Vec<(usize, usize)> {
        entries.iter().map(|entry| (entry.column, entry.start)).collect()
    };
    card.same("starts of two frames", starts(list(&cdm, &cds, 0)), both.clone());
    let account = account(&[1], &[3; 128], &[0], &[0; 128], &cdm);
    card.same("starts in the account", starts(account.entries), both);
    card.same("let in within a frame", starts(list(&cdm, &cds, 30)), second.to_vec());
    card.same("opened at the frame", starts(list(&cdm, &cds, 60 - 14)), second.to_vec());
    card.same("opened one later", starts(list(&cdm, &cds, 60 - 13)), vec![]);
}

/// Of all columns one alone is the start of an entry.
fn start_conditions(card: &mut Card) {
    let (cdm, cds) = two_frames();
    let fits = |entry: Entry| has_its_start(&cdm, &entry.bytes());
    for entry in list(&cdm, &cds, 0) {
        let fitting: Vec<usize> =
            (0..cdm.len()).filter(|&start| fits(entry.start(start))).collect();
        card.same(&format!("the start of {entry:?}"), fitting, vec![entry.start]);
    }
    let end = Entry::of(Kind::End).start(14);
    card.same("an end before rest", fits(end.at(45)), false);
    card.same("an end after rest", fits(end.at(47)), false);
    card.same("a read at rest", fits(Entry::of(Kind::Read).start(14).at(46)), false);
    card.same("an end past the row", fits(Entry::of(Kind::End).start(60).at(93)), false);
}

fn other_runs(card: &mut Card) {
    let cdm = built_read(0, 127, 1);
    let cds = answers(1, &mut [0; 128], &cdm);
    card.same("P at address 127", cds[45], 1);
    let cdm = built_read(0, 126, 1);
    let cds = answers(1, &mut [0; 128], &cdm);
    card.same("P at address 126", cds[45], 0);
    let cdm = built_read(0, 0, 64);
    let mut registers = [7; 128];
    registers[64] = 0;
    let account = account(&[1], &[3; 128], &[0], &registers, &cdm);
    let cds = answers(1, &mut registers, &cdm);
    card.same("P of the 63rd byte", cds[32 + 14 * 62 + 13], 0);
    card.same("P of the 64th byte", cds[32 + 14 * 63 + 13], 1);
    card.same("account of 64 bytes", account.entries, list(&cdm, &cds, 0));
}

fn limits(card: &mut Card) {
    let mut out = [9; 1000];
    card.same("64 bytes from 64", build_read(0, 64, 64, 0, &mut out), Made(928));
    card.same("byte past the row", out[928], 9);
    card.same("64 bytes from 65", build_read(0, 65, 64, 0, &mut out), Refused(10));
    card.same("64 written from 65", build_write(0, 65, &[0; 64], 0, &mut out), Refused(10));
    card.same("id 8", build_read(8, 0, 1, 0, &mut out), Refused(10));
    card.same("count 0", build_write(0, 0, &[], 0, &mut out), Refused(10));
    card.same("a count without end", build_read(0, 0, usize::MAX, 0, &mut out), Refused(10));
    card.same("10 before 9", build_read(8, 0, 1, 0, &mut []), Refused(10));
    card.same("one column short", build_read(0, 0, 1, 0, &mut out[..45]), Refused(9));
    card.same("CMD 4", build_command(0, 4, true, &mut out), Refused(10));
    card.same("10 before 9 of a command", build_command(0, 4, true, &mut []), Refused(10));
}

fn kinds(cdm: &[u8], cds: &[u8]) -> Vec<(Kind, usize)> {
    list(cdm, cds, 0).iter().map(|entry| (entry.kind, entry.column)).collect()
}

fn easy_errors(card: &mut Card) {
    let mut cdm = [0; 30].to_vec();
    cdm[14] = 1;
    cdm[15] = 1;
    let cds = answers(1, &mut [0; 128], &cdm);
    let wanted = vec![(Kind::Lock, 23), (Kind::End, 29)];
    card.same("S, CTS = 1, fourteen zeros", kinds(&cdm, &cds), wanted);

    let mut cdm = [0; 46];
    build_write(0, 5, &[0x5A], 0, &mut cdm);
    let mut registers = [0; 128];
    answers(1, &mut registers, &cdm[..44]);
    card.same("nothing stored before the last check bit", registers[5], 0);
    answers(1, &mut registers, &cdm[..45]);
    card.same("stored at the last check bit", registers[5], 0x5A);

    let mut registers = [0; 256];
    answers(2, &mut registers, &cdm);
    card.same("the far slave is ID 0", (registers[5], registers[128 + 5]), (0x5A, 0));
}

fn easy_answers(card: &mut Card) {
    let mut cdm = [0; 46];
    build_write(0, 5, &[0x5A], 0, &mut cdm);
    let nobody = answers(0, &mut [], &cdm);
    let wanted = vec![(Kind::Lock, 23), (Kind::Absent, 31)];
    card.same("unanswered write, nobody there", kinds(&cdm, &nobody), wanted);
    let mut cds = [0; 46];
    run(1, &[1], &[1; 128], &[0], &mut [0; 128], &mut [0; 4], &cdm, &mut cds);
    let wanted = vec![(Kind::Lock, 23), (Kind::Refused, 31)];
    card.same("refused write", kinds(&cdm, &cds), wanted);
}

/// Texts, and the number, line and byte of what is wrong with them.
const FAULTS: [(&str, u8, usize, usize); 21] = [
    ("", 13, 1, 0),
    ("xdm\tcds\n0\t1\n", 13, 1, 0),
    ("cdm cds\n", 13, 1, 3),
    ("cdm\tcds0\t1\n", 13, 1, 7),
    ("cdm\tcds\r\n", 13, 1, 7),
    ("cdx", 13, 1, 2),
    ("c", 17, 1, 1),
    ("cdm", 17, 1, 3),
    ("cdm\tcds", 17, 1, 7),
    ("cdm\tcds\n\n", 14, 2, 0),
    ("cdm\tcds\n0\t1\n2\t0\n", 14, 3, 0),
    ("cdm\tcds\n0\t1\n0\t0\n\n", 14, 4, 0),
    ("cdm\tcds\n0\t\n", 14, 2, 2),
    ("cdm\tcds\n0 2\r", 15, 2, 1),
    ("cdm\tcds\n0\t1\n01\n", 15, 3, 1),
    ("cdm\tcds\n0\t0\t0\n", 16, 2, 3),
    ("cdm\tcds\n0\t1\n0\t0\r\n", 16, 3, 3),
    ("cdm\tcds\n0", 17, 2, 1),
    ("cdm\tcds\n0\t", 17, 2, 2),
    ("cdm\tcds\n0\t1", 17, 2, 3),
    ("cdm\tcds\n0\t1\n1\t0", 17, 3, 3),
];

fn texts(card: &mut Card) {
    let (mut cdm, mut cds) = ([9; 3], [9; 3]);
    let mut back = |text: &str| -> (Outcome, [u8; 3], [u8; 3]) {
        (cdm, cds) = ([9; 3], [9; 3]);
        let outcome = text_to_rows(text.as_bytes(), &mut cdm, &mut cds);
        (outcome, cdm, cds)
    };
    let untouched = [9; 3];
    let good = back("cdm\tcds\n0\t1\n1\t0\n");
    card.same("two columns", good, (Made(2), [0, 1, 9], [1, 0, 9]));
    card.same("no columns", back("cdm\tcds\n"), (Made(0), untouched, untouched));
    for (text, number, line, byte) in FAULTS {
        let fault = InText(Fault { number, line, byte });
        card.same(text, back(text), (fault, untouched, untouched));
    }
    let four = "cdm\tcds\n0\t0\n0\t0\n0\t0\n0\t0\n";
    card.same("four columns in three", back(four), (Refused(9), untouched, untouched));
    let mut text = [0; 16];
    card.same("rows to text", rows_to_text(&[0, 1], &[1, 0], &mut text), Made(16));
    card.same("its bytes", &text, b"cdm\tcds\n0\t1\n1\t0\n");
}

/// A fault goes before 5, wherever it stands.
fn long_texts(card: &mut Card) {
    let mut text = [b"cdm\tcds\n".as_slice(), &b"0\t0\n".repeat(4097)].concat();
    card.same("4,097 columns", text_to_rows(&text, &mut [], &mut []), Refused(5));
    text.push(b'0');
    let fault = InText(Fault { number: 17, line: 4099, byte: 1 });
    card.same("cut behind the limit", text_to_rows(&text, &mut [], &mut []), fault);
}

fn lists(card: &mut Card) {
    let mut text = [9; 80];
    let entry = [10, 2, 16, 1, 242, 0, 68, 0, 90];
    card.same("a printed list", list_to_text(&entry, &mut text), Made(64));
    let wanted = b"event\tcolumn\tstart\tid\taddress\tbank\tvalue\nread\t528\t498\t0\t68\t-\t90\n";
    card.same("its bytes", &text[..65], &[&wanted[..], &[9]].concat()[..]);
    card.same("an empty list", list_to_text(&[], &mut text), Made(41));
    card.same("one byte short", list_to_text(&entry, &mut text[..63]), Refused(9));
    for length in (1..27).filter(|length| length % 9 != 0) {
        let ragged = [entry; 3].concat()[..length].to_vec();
        card.same(&format!("{length} bytes"), list_to_text(&ragged, &mut text), Refused(12));
    }
    card.same("kind 0", list_to_text(&[0; 9], &mut text), Refused(12));
    card.same("kind 21", list_to_text(&[21; 9], &mut text), Refused(12));
    card.same("12 before 9", list_to_text(&[21; 9], &mut []), Refused(12));
    let longest = [13, 255, 255, 255, 255, 255, 63, 255, 255];
    card.same("the longest line", list_to_text(&longest, &mut text), Made(41 + 36));
    let last = &text[41 + 36 - 21..41 + 36];
    card.same("its end", last, b"65535\t255\t63\t255\t255\n");
    let longest = [13, 255, 255, 255, 255, 255, 255, 255, 255];
    card.same("no bank at 255", list_to_text(&longest, &mut text), Made(41 + 35));
    card.same("its end", &text[41 + 35 - 15..41 + 35], b"\t255\t255\t-\t255\n");
}

#[cfg(test)]
mod tests {
    #[test]
    fn bench_card() {
        let (_, failed) = super::selftest();
        assert!(failed.is_empty(), "{failed:#?}");
    }
}
