//! "A night's intake in one call": "a lent table of jobs, each with its first column,
//! length and opening column"; "all lists into one buffer with the count of each".

use super::entry::ENTRY_BYTES;
use super::list::read;
use super::Outcome::{self, Made, OfJob, Refused};

/// A job of a table: its first column, its length and its opening column.
pub type Stretch = [usize; 3];

/// The two rows of a whole recording, CDM and CDS.
pub type Rows<'a> = [&'a [u8]; 2];

/// The job that reads a table: "the outcome equals the calls made singly, in table order".
pub fn read_all(rows: Rows, jobs: &[Stretch], out: &mut [u8], counts: &mut [usize]) -> Outcome {
    let [cdm, cds] = rows;
    if counts.len() != jobs.len() {
        return Refused(32);
    }
    if cdm.len() != cds.len() {
        return Refused(6);
    }
    if let Some(job) = jobs.iter().position(|&job| is_outside(job, cdm.len())) {
        return OfJob { number: 20, job };
    }
    let mut lists = Vec::new();
    for (job, &[first, length, opening]) in jobs.iter().enumerate() {
        let end = first + length;
        match single(&cdm[first..end], &cds[first..end], opening) {
            Ok(list) => lists.push(list),
            Err(number) => return OfJob { number, job },
        }
    }
    let all = lists.concat();
    if out.len() < all.len() {
        return Refused(9);
    }
    out[..all.len()].copy_from_slice(&all);
    for (count, list) in counts.iter_mut().zip(&lists) {
        *count = list.len() / ENTRY_BYTES;
    }
    Made(all.len() / ENTRY_BYTES)
}

/// Refusal 20: "a stretch outside the rows".
fn is_outside([first, length, _]: Stretch, columns: usize) -> bool {
    match first.checked_add(length) {
        Some(end) => end > columns,
        None => true,
    }
}

/// The bytes of one job's list, or "the reader's own" refusal.
fn single(cdm: &[u8], cds: &[u8], opening: usize) -> Result<Vec<u8>, u8> {
    let mut list = vec![0; ENTRY_BYTES * cdm.len()];
    match read(cdm, cds, opening, &mut list) {
        Made(entries) => {
            list.truncate(ENTRY_BYTES * entries);
            Ok(list)
        }
        Refused(number) => Err(number),
        other => panic!("read answered {other:?}"),
    }
}
