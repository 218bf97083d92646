//! A night's recording, longer than a row may be, and a table of three stretches of it that are read in one call: the first hour whole, an
//! hour in the night without its first frame, and the last hour, opened at its last frame. In each hour a master chooses bank 3 of the
//! only slave, writes 5B to address 10 (hexadecimal) there and reads it back. One table is refused. Every answer is asserted.

#[path = "../include/biss.rs"]
#[allow(dead_code)]
mod biss;
mod print_list;
use biss::{Job, Refusal, BANK_REGISTER, CMDS, ENTRY_BYTES, NO_BANK_YET};
use print_list::print_list;

const BANKS: usize = 4;
const REGISTERS: usize = 64 * (BANKS + 1);
const FRAME: usize = 46;
const HOUR: usize = 3 * FRAME;
const HOURS: usize = 40;

/// The first hour is built and run; all others are the same.
fn record() -> (Vec<u8>, Vec<u8>) {
    let (mut cdm, mut cds) = ([0; HOUR], [0; HOUR]);
    assert_eq!(biss::build_write(0, BANK_REGISTER, &[3], 0, &mut cdm), Ok(FRAME));
    assert_eq!(biss::build_write(0, 0x10, &[0x5B], 0, &mut cdm[FRAME..]), Ok(FRAME));
    assert_eq!(biss::build_read(0, 0x10, 1, 0, &mut cdm[2 * FRAME..]), Ok(FRAME));
    let (banks, rights, mut registers) = ([BANKS as u8], [3; REGISTERS], [0; REGISTERS]);
    let counts = &mut [0; CMDS];
    let answer = biss::run(1, &banks, &rights, &[0], &mut registers, counts, &cdm, &mut cds);
    assert_eq!(answer, Ok(HOUR));
    (cdm.repeat(HOURS), cds.repeat(HOURS))
}

fn main() {
    let (cdm, cds) = record();
    let night = cdm.len();
    let mut jobs = [
        Job { first: 0, length: HOUR, opening: 0 },
        Job { first: 20 * HOUR + FRAME, length: 2 * FRAME, opening: 0 },
        Job { first: night - HOUR, length: HOUR, opening: 2 * FRAME },
    ];
    assert_eq!(biss::read(&cdm, &cds, 0, &mut []), Err(Refusal::Number(5)));

    jobs[2].first += 1;
    let refusal = biss::read_all(&cdm, &cds, &jobs).expect_err("it ends past the night");
    assert_eq!(refusal, Refusal::OfJob { number: 20, job: 2 });
    assert_eq!(refusal.to_string(), "job 2: a stretch outside the rows");
    println!("a stretch one column too far: refusal {}, job 2", refusal.number());

    jobs[2].first -= 1;
    let lists = biss::read_all(&cdm, &cds, &jobs).expect("every stretch can be read");
    assert_eq!(lists.iter().map(Vec::len).collect::<Vec<_>>(), [8, 5, 2]);
    for (job, list) in jobs.iter().zip(&lists) {
        let (last, opened) = (job.first + job.length - 1, job.first + job.opening);
        println!("columns {} to {last}, opened at {opened}:", job.first);
        print_list(&list.iter().flat_map(|entry| entry.bytes()).collect::<Vec<u8>>());
    }
    let [known, unknown] = [lists[0][7], lists[1][4]];
    assert_eq!((known.column, known.bank), (136, 3));
    assert_eq!((unknown.column, unknown.bank), (90, NO_BANK_YET));

    let mut single = [0; 5 * ENTRY_BYTES];
    let [cdm, cds] = [&cdm, &cds].map(|row| &row[jobs[1].first..][..jobs[1].length]);
    assert_eq!(biss::read(cdm, cds, 0, &mut single), Ok(5));
    assert_eq!(biss::entries(&single).collect::<Vec<_>>(), lists[1]);
}
