//! Conditions of refusals that several jobs have, those of a text, those of a job of a
//! table, those of an entry's start and bank, those of a `mute` and what a command lists.

use model::table::{Rows, Stretch};
use model::Fault;

/// 5 for two rows.
pub fn too_long(cdm: &[u8], cds: &[u8]) -> bool {
    cdm.len().max(cds.len()) > 4096
}

/// 7 for one row.
pub fn bad_byte(row: &[u8]) -> bool {
    row.iter().any(|&byte| byte != 0 && byte != 1)
}

/// 7 for one column of two rows.
pub fn bad_column(rows: Rows, column: usize) -> bool {
    rows.iter().any(|row| bad_byte(&row[column..column + 1]))
}

/// The refusals that tell a job of a table, in the order in which one job has them.
pub const OF_JOB: [u8; 4] = [20, 5, 7, 8];

/// One of them for one job, judged by itself: 20 where it leaves either row, 7 of those of
/// its columns that the rows have.
pub fn holds_of_job(number: u8, [first, length, opening]: Stretch, rows: Rows) -> bool {
    let is_left = |row: &[u8]| first as u128 + length as u128 > row.len() as u128;
    match number {
        20 => rows.into_iter().any(is_left),
        5 => length >= 4097,
        7 => rows.into_iter().any(|row| {
            let mut stretch = row.iter().skip(first).take(length);
            stretch.any(|&byte| byte != 0 && byte != 1)
        }),
        8 => opening > length,
        _ => unreachable!("no job of a table has {number}"),
    }
}

/// 13 to 17: the first place of a text whose byte does not belong there, or its
/// end where no line ends; number, line and byte all follow from the place.
pub fn fault(text: &[u8]) -> Option<Fault> {
    let belongs = |place: usize, byte: u8| match place {
        0..=7 => byte == b"cdm\tcds\n"[place],
        _ if place % 4 == 1 => byte == b'\t',
        _ if place % 4 == 3 => byte == b'\n',
        _ => byte == b'0' || byte == b'1',
    };
    let bad = (0..text.len()).find(|&place| !belongs(place, text[place]));
    let place = bad.unwrap_or(text.len());
    if bad.is_none() && place >= 8 && place.is_multiple_of(4) {
        return None;
    }
    let number = match place {
        0 => 13,
        _ if bad.is_none() => 17,
        1..=7 => 13,
        _ => [14, 15, 14, 16][place % 4],
    };
    let (line, byte) = if place < 8 { (1, place) } else { (place / 4, place % 4) };
    Some(Fault { number, line, byte })
}

/// The start of an entry, given as its bytes, judged from the master row alone: a 1
/// behind fourteen zeros, and from there to the entry no other fourteen are complete;
/// in the entry's own column they are if it is an `end`, and only then.
pub fn has_its_start(cdm: &[u8], entry: &[u8]) -> bool {
    let number = |high: usize| usize::from(entry[high]) << 8 | usize::from(entry[high + 1]);
    let (is_end, column, start) = (entry[0] == 15, number(1), number(3));
    let rests = |from: usize| cdm[from..from + 14].iter().all(|&bit| bit == 0);
    let is_in_row = 14 <= start && start < column && column < cdm.len();
    is_in_row
        && rests(start - 14)
        && cdm[start] == 1
        && !(start + 1..column - 13).any(rests)
        && rests(column - 13) == is_end
}

/// The bank of an entry, given as its bytes, found by going back from it through the
/// list before it.
pub fn has_its_bank(before: &[u8], entry: &[u8]) -> bool {
    let (kind, id, address, bank) = (entry[0], entry[5], entry[6], entry[7]);
    if address > 63 || !matches!(kind, 5..=14 | 16) {
        return bank == 0;
    }
    let chooses = |earlier: &&[u8]| earlier[0] == 11 && earlier[5] == id && earlier[6] == 64;
    let chosen = before.rchunks(9).find(chooses);
    bank == chosen.map_or(255, |earlier| earlier[8])
}

/// An entry, given as its bytes, is no `mute`, or the master sent 0 in its column and
/// in the one before it a 1 that was answered 0.
pub fn is_given_up(cdm: &[u8], cds: &[u8], entry: &[u8]) -> bool {
    let column = usize::from(entry[1]) << 8 | usize::from(entry[2]);
    entry[0] != 9 || (cdm[column] == 0 && cdm[column - 1] == 1 && cds[column - 1] == 0)
}

/// What is listed of a command behind its header: kind, column, CMD and value.
pub type Commanded = (u8, usize, u8, u8);

/// All that is listed behind a command's header in the frame whose S stands in this column,
/// judged from the bits of the two rows there: an answer fits where it is 1 exactly if
/// both the bit of IDS and the lock are.
pub fn commanded(cdm: &[u8], cds: &[u8], start: usize) -> Vec<Commanded> {
    let bit = |row: &[u8], after: usize| row.get(start + after).copied();
    let byte = |row: &[u8], after: usize| {
        let bits = row.iter().skip(start + after).take(8);
        bits.fold(0, |byte: u8, bit| byte << 1 | bit)
    };
    let (ids, cmd) = (byte(cdm, 2), 2 * cdm[start + 10] + cdm[start + 11]);
    let fits =
        ids == 0 || (0..8).all(|id| bit(cds, 16 + id) == bit(cdm, 2 + id).min(bit(cds, 1 + id)));
    let ex = if ids == 0 { 17 } else { 24 };
    let mut all = Vec::new();
    if bit(cdm, 16) != Some(1) {
        return all;
    }
    if bit(cdm, 23).is_some() && !fits {
        all.push((19, start + 23, cmd, byte(cds, 16)));
    }
    match bit(cdm, ex) {
        Some(0) => all.push((18, start + ex, cmd, ids)),
        Some(_) => all.push((if fits { 17 } else { 20 }, start + ex, cmd, ids)),
        None => {}
    }
    all
}
