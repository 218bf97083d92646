//! Texts of rows, whole and spoiled.

use super::provoked::TWO_32;
use super::random::Random;
use super::recordings::recording;
use super::Marks;
use crate::conditions::fault;
use model::rows::MOST_COLUMNS;
use model::{rows_to_text, text::ROWS_HEADER};

/// Numbers of faults, each with the bytes of a line at which it can stand.
pub type Faults = &'static [(u8, &'static [usize])];

/// The faults that a text can have in its header and in a column's line.
pub const IN_HEADER: Faults = &[(13, &[0, 1, 2, 3, 4, 5, 6, 7]), (17, &[1, 2, 3, 4, 5, 6, 7])];
pub const IN_COLUMN: Faults = &[(14, &[0, 2]), (15, &[1]), (16, &[3]), (17, &[1, 2, 3])];

/// What a damaged text is marked with.
pub const DAMAGES: [&str; 12] = [
    "byte changed",
    "byte removed",
    "byte inserted",
    "cut",
    "no last LF",
    "one CR LF",
    "CR LF always",
    "line added",
    "header wrong",
    "empty",
    "damage that does no harm",
    "fault put",
];

/// Larger than any row, and small if cut to sixteen bits.
const LARGE: usize = 3 * TWO_32;

const BYTES: &[u8] = b"01\t\n 2a\r\0";

const HEADERS: [&[u8]; 9] = [
    b"",
    b"cds\tcdm\n",
    b"cdm cds\n",
    b"CDM\tCDS\n",
    b"cdm\tcds\t\n",
    b"cdm\tcds\r\n",
    b"cdm,cds\n",
    b"\xEF\xBB\xBFcdm\tcds\n",
    b"cdm\tcds\ncdm\tcds\n",
];

const LINES: [&[u8]; 8] =
    [b"\n", b"\n\n", b"0\t0\t0\n", b"0 1\n", b"2\t0\n", b"0\t/\n", b"0\t1\r\n", b"01\t0\n"];

/// The text of a recording's rows, and how many columns it has.
pub fn text(random: &mut Random) -> (Vec<u8>, usize) {
    if random.one_in(40) {
        return (ROWS_HEADER.to_vec(), 0);
    }
    let rows = recording(random);
    let mut text = vec![0; ROWS_HEADER.len() + 4 * rows.cdm.len()];
    rows_to_text(&rows.cdm, &rows.cds, &mut text);
    (text, rows.cdm.len())
}

/// Goes on up to more than 4,096 columns; gives how many there are.
pub fn lengthen(random: &mut Random, text: &mut Vec<u8>) -> usize {
    let columns = MOST_COLUMNS + random.pick(&[1, 1, 1, 2, 3, 1000]);
    while text.len() < ROWS_HEADER.len() + 4 * columns {
        text.extend_from_slice(&[b'0' + random.bit(), b'\t', b'0' + random.bit(), b'\n']);
    }
    columns
}

/// Any place of a text, often one at an end of it or of its header.
fn place(random: &mut Random, text: &[u8]) -> usize {
    let any = random.below(text.len());
    random.pick(&[0, 7, 8, text.len() - 1, any, any, any, any]).min(text.len() - 1)
}

/// Damages a text with its header, and says how.
pub fn damage(random: &mut Random, text: &mut Vec<u8>) -> Marks {
    match random.below(10) {
        0..=3 => return damage_anyhow(random, text),
        4..=5 => spoil_header(random, text),
        _ => spoil_column(random, text),
    }
    vec!["fault put"]
}

/// Gives a text one of the faults of a header.
fn spoil_header(random: &mut Random, text: &mut Vec<u8>) {
    let (number, byte) = random.pick(&each(IN_HEADER));
    put_fault(random, text, number, byte);
}

/// Gives a text one of the faults of a column's line: at times any line, mostly
/// one past the limit or else the last.
fn spoil_column(random: &mut Random, text: &mut Vec<u8>) {
    let (number, byte) = random.pick(&each(IN_COLUMN));
    // Cut in a line of its own, a text keeps the columns that it has.
    if number == 17 || text.len() == ROWS_HEADER.len() {
        text.extend_from_slice(b"0\t1\n");
    }
    let columns = (text.len() - ROWS_HEADER.len()) / 4;
    let last = columns - 1;
    let past = MOST_COLUMNS.min(last);
    let any = random.below(columns);
    let any_past = random.between(past, last);
    let column = random.pick(&[any, past, any_past, last]);
    put_fault(random, text, number, ROWS_HEADER.len() + 4 * column + byte);
}

/// Each number with each of its bytes.
pub fn each(faults: Faults) -> Vec<(u8, usize)> {
    let places =
        |&(number, bytes): &(u8, &'static [usize])| bytes.iter().map(move |&byte| (number, byte));
    faults.iter().flat_map(places).collect()
}

/// Ends a text at a place, or makes the byte there wrong and at times one more
/// behind it.
fn put_fault(random: &mut Random, text: &mut Vec<u8>, number: u8, place: usize) {
    if number == 17 {
        return text.truncate(place);
    }
    let behind = place + random.between(1, 8);
    if behind < text.len() && random.one_in(3) {
        text[behind] = byte(random);
    }
    text[place] = other_byte(random, text[place]);
}

/// A byte that does not belong where this one does.
fn other_byte(random: &mut Random, good: u8) -> u8 {
    let as_digit = |byte| if byte == b'1' { b'0' } else { byte };
    loop {
        let drawn = byte(random);
        if as_digit(drawn) != as_digit(good) {
            return drawn;
        }
    }
}

/// Damages a text without asking what is then wrong with it, if anything is.
fn damage_anyhow(random: &mut Random, text: &mut Vec<u8>) -> Marks {
    let how = random.below(10);
    let place = place(random, text);
    match how {
        0 => text[place] = byte(random),
        1 => drop(text.remove(place)),
        2 => text.insert(place, byte(random)),
        3 => text.truncate(place),
        4 => drop(text.pop()),
        5 => feed_with_return(random, text),
        6 => *text = text.split_inclusive(|&byte| byte == b'\n').flat_map(with_return).collect(),
        7 => drop(text.splice(line_start(place)..line_start(place), random.pick(&LINES).to_vec())),
        8 => drop(text.splice(..ROWS_HEADER.len(), random.pick(&HEADERS).to_vec())),
        _ => text.clear(),
    }
    vec![fault(text).map_or("damage that does no harm", |_| DAMAGES[how])]
}

fn byte(random: &mut Random) -> u8 {
    if random.one_in(4) {
        return random.next() as u8;
    }
    random.pick(BYTES)
}

fn line_start(place: usize) -> usize {
    place - place % 4
}

fn feed_with_return(random: &mut Random, text: &mut Vec<u8>) {
    let feeds: Vec<usize> = (0..text.len()).filter(|&place| text[place] == b'\n').collect();
    text.insert(random.pick(&feeds), b'\r');
}

fn with_return(line: &[u8]) -> Vec<u8> {
    [&line[..line.len() - 1], b"\r\n"].concat()
}

/// A text for the indexing program, whole, too long or damaged, and an opening
/// column, at times past its end.
pub fn recorded_text(random: &mut Random) -> (Vec<u8>, usize) {
    let (mut text, mut columns) = text(random);
    if random.one_in(3) {
        columns = lengthen(random, &mut text);
    }
    if random.one_in(4) {
        columns += random.below(40_000);
        text.resize(8 + 4 * columns, 0);
        text[8..].chunks_exact_mut(4).for_each(|line| line.copy_from_slice(b"1\t0\n"));
    }
    if random.one_in(3) {
        damage(random, &mut text);
    }
    let within = random.below(columns + 1);
    let opening = random.pick(&[0, 0, within, within, columns, columns + 1, LARGE, usize::MAX]);
    (text, opening)
}
