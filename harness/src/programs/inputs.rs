//! What the indexing program is tried on: its inputs by name, and one from a seed.

use super::preset;
use crate::generate::texts::{each, recorded_text, IN_COLUMN, IN_HEADER};
use crate::generate::Random;
use model::{build_read, build_write, index, rows_to_text, run, Outcome::Made};

/// One input: its name, the opening column that the program is started with, if
/// any, and its standard input.
pub struct Input {
    pub name: String,
    pub opening: Option<usize>,
    pub stdin: Vec<u8>,
}

const READ_COLUMNS: usize = 46;
const LIMIT: usize = 4096;
/// Columns of a text that the program reads in several pieces.
const LONG: usize = 20_000;
/// Where a long text gets a fault: the last line of the first piece and the first
/// of the second, of 16,396 bytes each, then one of the fourth.
const LINES: [usize; 3] = [4_098, 4_099, 15_000];

pub fn input(name: &str, opening: Option<usize>, stdin: Vec<u8>) -> Input {
    Input { name: name.to_string(), opening, stdin }
}

/// The inputs that program crates hold, for rt to run; their names are the
/// crates'.
pub fn held() -> Vec<Input> {
    vec![
        input("index", None, text(&bench_row(14, 1))),
        faulty("index_bad_behind", LONG, 15_000, (15, 1)),
    ]
}

/// A recording of a slow memory, which `examples/` holds: a slave that waits 3 is asked
/// for two bytes, then for one by a master that repeats S only twice.
pub fn slow_memory() -> Input {
    let mut row = vec![0; 32 + 2 * (14 + 3) + 32 + 14 + 2 + 1];
    let (first, second) = row.split_at_mut(32 + 2 * (14 + 3));
    assert_eq!(build_read(0, 0x44, 2, 3, first), Made(first.len()));
    assert_eq!(build_read(0, 0x44, 1, 2, second), Made(second.len() - 1));
    let input = input("a slow memory", None, text_of_slave(3, 1, &row));
    let wanted = [
        "event\tcolumn\tstart\tid\taddress\tbank\tvalue",
        "lock\t23\t14\t-\t-\t-\t1",
        "read\t47\t14\t0\t68\t-\t90",
        "read\t64\t14\t0\t69\t-\t1",
        "end\t66\t14\t-\t-\t-\t-",
        "lock\t89\t80\t-\t-\t-\t1",
        "mute\t101\t80\t0\t68\t-\t-",
        "end\t114\t80\t-\t-\t-\t-\n",
    ];
    assert_eq!(input.report(), wanted.join("\n").as_bytes());
    input
}

/// A recording of a calibration, which `examples/` holds: of two slaves ID 1 has four
/// banks; bank 3 is chosen, a byte at address 16 behind it is written and read back.
/// Opened behind the frame that chooses the bank, it is not known.
pub fn calibrations() -> [Input; 2] {
    let choice = [
        "lock\t23\t14\t-\t-\t-\t2\n",
        "written\t44\t14\t1\t64\t-\t3\n",
        "end\t57\t14\t-\t-\t-\t-\n",
    ];
    let opened = |name, opening, choice: &[&str], bank: u8| {
        let input = input(name, opening, calibration_text());
        let behind = [
            "lock\t69\t60\t-\t-\t-\t2\n".to_string(),
            format!("written\t90\t60\t1\t16\t{bank}\t196\n"),
            "end\t103\t60\t-\t-\t-\t-\n".to_string(),
            "lock\t115\t106\t-\t-\t-\t2\n".to_string(),
            format!("read\t136\t106\t1\t16\t{bank}\t196\n"),
            "end\t138\t106\t-\t-\t-\t-\n".to_string(),
        ];
        let header = "event\tcolumn\tstart\tid\taddress\tbank\tvalue\n".to_string();
        let wanted = header + &choice.concat() + &behind.concat();
        assert_eq!(String::from_utf8_lossy(&input.report()), wanted, "{name}");
        input
    };
    [
        opened("a calibration", None, &choice, 3),
        opened("a calibration, opened late", Some(46), &[], 255),
    ]
}

fn calibration_text() -> Vec<u8> {
    let mut row = vec![0; 3 * 46 + 1];
    assert_eq!(build_write(1, 64, &[3], 0, &mut row), Made(46));
    assert_eq!(build_write(1, 0x10, &[0xC4], 0, &mut row[46..]), Made(46));
    assert_eq!(build_read(1, 0x10, 1, 0, &mut row[92..]), Made(46));
    text_of_slaves(&[1, 4], &[0, 0], &mut [0; 128 + 320], &row)
}

/// The inputs that the linked program alone is tried on.
pub fn named() -> Vec<Input> {
    let two_frames = [bench_row(14, 14), bench_row(14, 1)].concat();
    let mut inputs = vec![
        slow_memory(),
        preset::recording(),
        input("the card's run, its last column off: no end", None, text(&bench_row(14, 0))),
        input("thirteen zeros before S: nobody is at rest", None, text(&bench_row(13, 14))),
        input("an empty input", None, Vec::new()),
        input("a header alone: rows of no columns", None, text(&[])),
        input("4,096 columns", None, text(&busy_row(LIMIT))),
        input("4,097 columns", None, lines(LIMIT + 1)),
        input("opened in the middle of a frame", Some(30), text(&two_frames)),
        input("an opening column past the end", Some(48), text(&bench_row(14, 1))),
    ];
    inputs.extend(calibrations());
    inputs.extend(at_frame(&two_frames));
    inputs
}

/// Two frames, the second one's S in column 74: opened fourteen columns before, its
/// read is listed again; one column later nothing is.
fn at_frame(two_frames: &[u8]) -> [Input; 3] {
    let opened = |name, opening, is_listed| {
        let input = input(name, opening, text(two_frames));
        let report = String::from_utf8(input.report()).expect("a list is printed");
        assert_eq!(report.contains("\nread\t104\t74\t0\t68\t-\t90\n"), is_listed, "{name}");
        input
    };
    [
        opened("two frames", None, true),
        opened("opened at the start of an entry less fourteen", Some(74 - 14), true),
        opened("opened one column later", Some(74 - 13), false),
    ]
}

/// The card's run: a built read of ID 0, address 0x44, one byte, with so many
/// zeros before its frame and behind it.
fn bench_row(before: usize, behind: usize) -> Vec<u8> {
    let mut row = vec![0; READ_COLUMNS];
    assert_eq!(build_read(0, 0x44, 1, 0, &mut row), Made(READ_COLUMNS));
    [vec![0; before], row.split_off(14), vec![0; behind]].concat()
}

/// Writes and reads of several bytes, one after the other, cut to a length.
fn busy_row(columns: usize) -> Vec<u8> {
    let mut row = Vec::new();
    for address in (0..128).step_by(5).cycle() {
        if row.len() >= columns {
            break;
        }
        let mut frame = vec![0; 32 + 14 * 3];
        if address % 2 == 0 {
            build_write(0, address, &[address, 0x5A, !address], 0, &mut frame);
        } else {
            build_read(0, address.min(125), 3, 0, &mut frame);
        }
        row.extend(frame);
    }
    row.truncate(columns);
    row
}

/// A master row and the answers of one slave that does not wait, register 0x44
/// holding 0x5A and the others 0, as text.
fn text(cdm: &[u8]) -> Vec<u8> {
    text_of_slave(0, 0, cdm)
}

/// The same for a slave that waits so long, and whose register 0x45 holds this.
fn text_of_slave(wait: u8, behind: u8, cdm: &[u8]) -> Vec<u8> {
    let mut registers = [0; 128];
    registers[0x44..0x46].copy_from_slice(&[0x5A, behind]);
    text_of_slaves(&[1], &[wait], &mut registers, cdm)
}

/// A master row and the answers of slaves with all rights 3, as text.
pub fn text_of_slaves(banks: &[u8], waits: &[u8], registers: &mut [u8], cdm: &[u8]) -> Vec<u8> {
    let rights = vec![3; registers.len()];
    let (counts, mut cds) = (&mut vec![0; 4 * banks.len()], vec![0; cdm.len()]);
    let made = run(banks.len(), banks, &rights, waits, registers, counts, cdm, &mut cds);
    assert_eq!(made, Made(cdm.len()));
    let mut text = vec![0; 8 + 4 * cdm.len()];
    assert_eq!(rows_to_text(cdm, &cds, &mut text), Made(text.len()));
    text
}

/// A text of so many columns of zeros, however many.
fn lines(columns: usize) -> Vec<u8> {
    [&b"cdm\tcds\n"[..], &b"0\t0\n".repeat(columns)].concat()
}

/// Every fault that a text can have: in the header, on a line of a text within the
/// limit and on lines of a long one.
pub fn faulty_inputs() -> Vec<Input> {
    let at = |columns, line, fault: (u8, usize)| {
        let (number, byte) = fault;
        let name = format!("{number} on line {line} of {columns} columns, byte {byte}");
        faulty(&name, columns, line, fault)
    };
    let header = each(IN_HEADER).into_iter().map(|fault| at(3, 1, fault));
    let within = each(IN_COLUMN).into_iter().map(|fault| at(LIMIT, 812, fault));
    let on_line = |line| each(IN_COLUMN).into_iter().map(move |fault| at(LONG, line, fault));
    header.chain(within).chain(LINES.into_iter().flat_map(on_line)).collect()
}

/// A text of so many columns with one fault, a number at a byte of a line: a
/// blank stands there or, for 17, the text ends.
fn faulty(name: &str, columns: usize, line: usize, (number, byte): (u8, usize)) -> Input {
    let mut stdin = lines(columns);
    let place = if line == 1 { byte } else { 4 * line + byte };
    if number == 17 {
        stdin.truncate(place);
    } else {
        stdin[place] = b' ';
    }
    let input = input(name, None, stdin);
    let wanted = format!("refused\t{number}\t{line}\t{byte}\n");
    assert_eq!(input.report(), wanted.as_bytes(), "{name}");
    input
}

impl Input {
    /// The text of a seed, and an opening column that is 0 said or not.
    pub fn from_seed(seed: u64, random: &mut Random) -> Input {
        let (stdin, column) = recorded_text(random);
        let opening = (column > 0 || random.one_in(2)).then_some(column);
        Input { name: format!("the text of seed {seed}"), opening, stdin }
    }

    /// What the program has to print.
    pub fn report(&self) -> Vec<u8> {
        index(&self.stdin, self.opening.unwrap_or(0))
    }
}
