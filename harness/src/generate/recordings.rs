//! Recorded rows, whole and spoiled.

use super::chains::{chain_and_row, Chain};
use super::commands::spoil_acknowledgements;
use super::provoked::{other_length, spoil_byte, Provoked, BAD_ROW_BYTES};
use super::random::Random;
use super::rows::long_row;
use model::entry::{Entry, Kind};
use model::frame::{BANK_REGISTER, CODES};
use model::list::list;
use model::run;

/// Where the answers of recorded rows come from.
#[derive(Clone, Copy, PartialEq, Eq, PartialOrd, Ord, Debug)]
pub enum Answers {
    Honest,
    Damaged,
    Random,
}

pub const ANSWERS: [Answers; 3] = [Answers::Honest, Answers::Damaged, Answers::Random];

/// Two recorded rows of equal length within all limits.
pub struct Recording {
    pub cdm: Vec<u8>,
    pub cds: Vec<u8>,
    pub answers: Answers,
}

pub fn recording(random: &mut Random) -> Recording {
    let (mut chain, row) = chain_and_row(random);
    let mut cdm = row.cdm;
    let (counts, mut cds) = (&mut vec![0; CODES * chain.slaves], vec![0; cdm.len()]);
    let Chain { slaves, banks, rights, waits, registers } = &mut chain;
    run(*slaves, banks, rights, waits, registers, counts, &cdm, &mut cds);
    let answers = random.pick(&ANSWERS);
    if !cdm.is_empty() {
        match answers {
            Answers::Honest => {}
            Answers::Damaged => damage(random, &mut cdm, &mut cds),
            Answers::Random => make_random(random, &cdm, &mut cds),
        }
    }
    Recording { cdm, cds, answers }
}

/// A master row and a length for its answer row; 5 and 6 as asked for.
pub fn two_lengths(random: &mut Random, cdm: Vec<u8>, provoked: &Provoked) -> (Vec<u8>, usize) {
    let mut cdm = cdm;
    let mut cds_length = cdm.len();
    if provoked.has(5) {
        let long = long_row(random);
        match random.below(3) {
            0 => cds_length = long.len(),
            1 => cdm = long,
            _ => {
                cds_length = long.len();
                cdm = long;
            }
        }
    }
    if provoked.has(6) && cdm.len() == cds_length {
        cds_length = other_length(random, cds_length);
    }
    (cdm, cds_length)
}

/// Recorded rows with 5, 6 and 7 as asked for, and where they come from.
pub fn spoiled_recording(random: &mut Random, provoked: &Provoked) -> Recording {
    let mut rows = recording(random);
    if provoked.has(5) || provoked.has(6) {
        let (cdm, cds_length) = two_lengths(random, rows.cdm, provoked);
        rows.cdm = cdm;
        rows.cds = random.bits(cds_length, 8);
    }
    if provoked.has(7) {
        let which = random.below(3);
        if which != 0 {
            spoil_byte(random, &mut rows.cdm, BAD_ROW_BYTES);
        }
        if which != 1 {
            spoil_byte(random, &mut rows.cds, BAD_ROW_BYTES);
        }
    }
    rows
}

fn damage(random: &mut Random, cdm: &mut [u8], cds: &mut [u8]) {
    let length = cds.len();
    match random.below(12) {
        0 => flip_some(random, cds),
        1 => flip_some(random, cdm),
        2 => {
            let one_in = random.pick(&[16, 64]);
            flip_each(random, cds, one_in);
        }
        3 => cds.copy_within(0..length - 1, 1),
        4 => {
            let from = random.below(length);
            let to = (from + random.between(1, 30)).min(length);
            cds[from..to].fill(random.bit());
        }
        5 | 6 => break_line(random, cdm, cds),
        _ => flip_at_entries(random, cdm, cds),
    }
    if random.one_in(2) {
        spoil_acknowledgements(random, cdm, cds);
    }
}

/// From some column on all answers are the same; mostly from a written byte on, the first
/// that chooses a bank if one does.
fn break_line(random: &mut Random, cdm: &[u8], cds: &mut [u8]) {
    let mut written = list(cdm, cds, 0);
    written.retain(|entry| entry.kind == Kind::Written);
    let choice = written.iter().find(|entry| entry.address == BANK_REGISTER);
    let any = random.below(cds.len());
    let from = choice.or(written.first()).map_or(any, |entry| entry.column + 1);
    cds[random.pick(&[any, from, from, from])..].fill(random.pick(&[0, 0, 0, 1, 1]));
}

fn flip_some(random: &mut Random, row: &mut [u8]) {
    for _ in 0..random.between(1, 4) {
        row[random.below(row.len())] ^= 1;
    }
}

fn flip_each(random: &mut Random, row: &mut [u8], one_in: usize) {
    for bit in row {
        *bit ^= u8::from(random.one_in(one_in));
    }
}

/// Flips answers on which an entry hangs: in its own column, in one before, at the S of
/// its byte, confirmed or waited for, or at the R or the W of its frame.
fn flip_at_entries(random: &mut Random, cdm: &[u8], cds: &mut [u8]) {
    let one_in = random.pick(&[2, 4, 200, 1000]);
    for entry in list(cdm, cds, 0) {
        let back = random.pick(&[0, 0, 0, 0, 0, 1, 1, 5, 12, 12, 13]);
        if entry.kind == Kind::Closed {
            cds[entry.column] ^= random.bit();
        } else if random.one_in(one_in) {
            cds[entry.column - back] ^= 1;
        } else if random.one_in(2 * one_in) {
            let column = entry.start + random.pick(&[16, 16, 17]);
            cds.iter_mut().skip(column).take(1).for_each(|bit| *bit ^= 1);
        }
    }
}

/// Answers without sense; the honest locks may stay, as nearly no frame would
/// go past them otherwise.
fn make_random(random: &mut Random, cdm: &[u8], cds: &mut [u8]) {
    let honest = cds.to_vec();
    let entries = list(cdm, cds, 0);
    let ones = random.pick(&[1, 8, 8, 15]);
    cds.copy_from_slice(&random.bits(cdm.len(), ones));
    if random.one_in(2) {
        cds.copy_from_slice(cdm);
        let one_in = random.pick(&[32, 200, 1000]);
        flip_each(random, cds, one_in);
    }
    let is_lock = |entry: &&Entry| entry.kind == Kind::Lock;
    for lock in entries.iter().filter(is_lock) {
        if !random.one_in(4) {
            let locks = lock.column - 8..=lock.column;
            cds[locks.clone()].copy_from_slice(&honest[locks]);
        }
    }
}
