//! Slow memories, worked by hand: bytes that wait, masters that give up, and the
//! refusals that came with them.

use super::Card;
use model::account::account;
use model::entry::{Entry, Kind};
use model::list::list;
use model::Outcome::{Made, Refused};
use model::{build_read, build_write, run};

/// Fourteen zeros, S and the header of ID 0, address 44; and the answers of one slave.
const HEADER: &str = "00000000000000 1 1 000 1000100 1101";
const LOCKED: &str = "00000000000000 0 1 000 0000000 0000";

pub fn tried(card: &mut Card) {
    slow_read(card);
    slow_write(card);
    given_up(card);
    repeated_otherwise(card);
    reader_alone(card);
    each_its_own(card);
    refused_runs(card);
    refused_builds(card);
}

fn bits(drawn: &str) -> Vec<u8> {
    drawn.bytes().filter(|byte| *byte != b' ').map(|byte| byte - b'0').collect()
}

/// A row drawn behind the header, and one drawn behind its answers.
fn sent(drawn: &str) -> Vec<u8> {
    bits(&format!("{HEADER} {drawn}"))
}

fn answered(drawn: &str) -> Vec<u8> {
    bits(&format!("{LOCKED} {drawn}"))
}

/// An entry of the frame whose S stands in column 14.
fn entry(kind: Kind, column: usize, address: u8, value: u8) -> Entry {
    Entry::of(kind).at(column).start(14).place(0, address).value(value)
}

fn lock() -> Entry {
    entry(Kind::Lock, 23, 0, 1)
}

/// One slave, all rights 3, 44 holding 5A and 45 holding 01, that waits so long: its
/// answers, their list and the chain's account.
fn one_slave(card: &mut Card, what: &str, wait: u8, cdm: &[u8], answers: &[u8], listed: &[Entry]) {
    let mut registers = [0; 128];
    registers[0x44..0x46].copy_from_slice(&[0x5A, 0x01]);
    let (before, waits) = (registers, [wait]);
    let mut cds = vec![9; cdm.len()];
    run(1, &[1], &[3; 128], &waits, &mut registers, &mut [0; 4], cdm, &mut cds);
    card.same(&format!("{what}: answers"), &cds[..], answers);
    card.same(&format!("{what}: list"), &list(cdm, &cds, 0)[..], listed);
    let account = account(&[1], &[3; 128], &waits, &before, cdm);
    card.same(&format!("{what}: account"), &account.entries[..], listed);
    card.same(&format!("{what}: registers"), &account.registers[..], &registers[..]);
}

/// Two bytes, each after two answers of 0; cut in a wait, nothing is listed for it.
fn slow_read(card: &mut Card) {
    let cdm = sent("10 111 00000000 0000 0 111 00000000 0000 0");
    let cds = answered("10 001 01011010 0000 0 001 00000001 1100 0");
    let mut built = [9; 65];
    card.same("a read that waits 2", build_read(0, 0x44, 2, 2, &mut built), Made(64));
    card.same("its columns", &built[..], &[&cdm[..], &[9]].concat()[..]);
    let listed = [lock(), entry(Kind::Read, 46, 0x44, 0x5A), entry(Kind::Read, 62, 0x45, 0x01)];
    one_slave(card, "a slow read", 2, &cdm, &cds, &listed);
    one_slave(card, "cut in the second wait", 2, &cdm[..50], &cds[..50], &listed[..2]);
    one_slave(card, "cut in the first wait", 2, &cdm[..34], &cds[..34], &listed[..1]);
}

/// The first byte does not wait, however long its slave does; the second does.
fn slow_write(card: &mut Card) {
    let cdm = sent("01 1 01011010 0000 0 11 00000001 1100 0");
    let cds = answered("01 1 01011010 0000 0 01 00000001 1100 0");
    let mut built = [9; 62];
    let made = build_write(0, 0x44, &[0x5A, 0x01], 1, &mut built);
    card.same("a write that waits 1", made, Made(61));
    card.same("its columns", &built[..], &[&cdm[..], &[9]].concat()[..]);
    let written = |column, address, value| entry(Kind::Written, column, address, value);
    let listed = [lock(), written(44, 0x44, 0x5A), written(59, 0x45, 0x01)];
    one_slave(card, "a slow write", 1, &cdm, &cds, &listed);
    one_slave(card, "the first byte of a write", 255, &cdm[..46], &cds[..46], &listed[..2]);
}

/// A 0 after a 1 that was not confirmed is a `mute`, a 0 after none is not.
fn given_up(card: &mut Card) {
    let end = |column| entry(Kind::End, column, 0, 0);
    let mute = |column, address| entry(Kind::Mute, column, address, 0);
    let cdm = sent("10 11 00000000000000");
    let cds = answered("10 00 00000000000000");
    one_slave(card, "given up", 2, &cdm, &cds, &[lock(), mute(34, 0x44), end(47)]);
    let cdm = sent("10 0 000000000000");
    let cds = answered("10 0 000000000000");
    one_slave(card, "no 1 before it", 2, &cdm, &cds, &[lock(), end(44)]);
    let cdm = sent("10 111 00000000 0000 0 1 0");
    let cds = answered("10 001 01011010 0000 0 0 0");
    let read = entry(Kind::Read, 46, 0x44, 0x5A);
    one_slave(card, "at the second byte", 2, &cdm, &cds, &[lock(), read, mute(49, 0x45)]);
    let cdm = sent("10 111 00000000 0000 1 0 1111");
    let cds = answered("10 001 01011010 0000 0 0 0000");
    one_slave(card, "ended at the second byte", 2, &cdm, &cds, &[lock(), read]);
    let cdm = sent("10 111 00000000 0000 0 0");
    let cds = answered("10 001 01011010 0000 0 0");
    one_slave(card, "the fourteenth zero there", 2, &cdm, &cds, &[lock(), read, end(48)]);
    let cdm = sent("10 11 0 1111");
    let cds = answered("10 00 0 0000");
    one_slave(card, "deaf to a later S", 2, &cdm, &cds, &[lock(), mute(34, 0x44)]);
}

/// Repeated once more than its slave waits, S is the first data bit.
fn repeated_otherwise(card: &mut Card) {
    let cdm = sent("10 1111 0000000 0000 0");
    let cds = answered("10 0010 1011010 0000 0");
    let read = entry(Kind::Read, 46, 0x44, 0x5A);
    one_slave(card, "a read, S too often", 2, &cdm, &cds, &[lock(), read]);
    let cdm = sent("01 1 01011010 0000 0 11 00000001 1100 0");
    let cds = answered("01 1 01011010 0000 0 11 00000001 1101 0");
    let written = entry(Kind::Written, 44, 0x44, 0x5A);
    let writebad = entry(Kind::WriteBad, 58, 0x45, 0x80);
    let listed = [lock(), written, writebad, entry(Kind::Closed, 59, 0x45, 0)];
    one_slave(card, "a write, S too often", 0, &cdm, &cds, &listed);
}

/// Answers of no slave: the reader waits at the first byte of a write too, as long as
/// the master repeats S.
fn reader_alone(card: &mut Card) {
    let cdm = sent("01 1111 01011010 0000 0");
    let cds = answered("01 0001 01011010 0000 0");
    let listed = [lock(), entry(Kind::Written, 47, 0x44, 0x5A)];
    card.same("a write that waits at once", &list(&cdm, &cds, 0)[..], &listed[..]);
    let cdm = sent(&format!("01 {} 0", "1".repeat(300)));
    let cds = answered(&format!("01 {} 0", "0".repeat(300)));
    let listed = [lock(), entry(Kind::Mute, 332, 0x44, 0)];
    card.same("300 repeats in vain", &list(&cdm, &cds, 0)[..], &listed[..]);
    card.same("not given up", list(&cdm[..332], &cds[..332], 0), vec![lock()]);
}

/// Waiting numbers stand far slave first: of two, ID 1 alone waits.
fn each_its_own(card: &mut Card) {
    let first_s = |id: u8| {
        let mut cdm = [0; 32 + 14 + 2];
        build_read(id, 0x41, 1, 2, &mut cdm);
        let mut cds = [9; 32 + 14 + 2];
        run(2, &[1, 1], &[3; 256], &[0, 2], &mut [0; 256], &mut [0; 8], &cdm, &mut cds);
        cds[32..].iter().position(|&bit| bit == 1)
    };
    card.same("ID 0 does not wait", first_s(0), Some(0));
    card.same("ID 1 waits 2", first_s(1), Some(2));
}

/// 18 stands after 4 and before 5.
fn refused_runs(card: &mut Card) {
    let refusal = |right: u8, waits: usize, columns: usize| {
        let (rights, cdm) = ([right; 128], vec![0; columns]);
        let mut cds = vec![0; columns];
        run(1, &[1], &rights, &vec![0; waits], &mut [0; 128], &mut [0; 4], &cdm, &mut cds)
    };
    card.same("one wait", refusal(3, 1, 5), Made(5));
    for waits in [0, 2, 128, 257] {
        card.same(&format!("{waits} waits"), refusal(3, waits, 5), Refused(18));
    }
    card.same("4 before 18", refusal(4, 2, 5), Refused(4));
    card.same("18 before 5", refusal(3, 2, 4097), Refused(18));
    let no_slave = |waits: &[u8]| run(0, &[], &[], waits, &mut [], &mut [], &[], &mut []);
    card.same("no slave, no wait", no_slave(&[]), Made(0));
    card.same("no slave, one wait", no_slave(&[0]), Refused(18));
}

/// 5 stands between 10 and 9.
fn refused_builds(card: &mut Card) {
    let mut out = vec![9; 5000];
    let mut read = |id, count, wait, room| build_read(id, 0, count, wait, &mut out[..room]);
    card.same("one byte that waits 255", read(0, 1, 255, 301), Made(301));
    card.same("one column short", read(0, 1, 255, 300), Refused(9));
    card.same("32 bytes that wait 113", read(0, 32, 113, 4096), Made(4096));
    card.same("19 bytes that wait 200", read(0, 19, 200, 4098), Refused(5));
    card.same("5 before 9", read(0, 64, 255, 0), Refused(5));
    card.same("10 before 5", read(8, 64, 255, 5000), Refused(10));
    card.same("a count without end", read(0, usize::MAX, 255, 0), Refused(10));
    let mut write = |id, count: usize, wait, room| {
        build_write(id, 0, &vec![0xFF; count], wait, &mut out[..room])
    };
    card.same("one byte written", write(0, 1, 255, 46), Made(46));
    card.same("31 bytes written that wait 121", write(0, 31, 121, 4096), Made(4096));
    card.same("one column short", write(0, 31, 121, 4095), Refused(9));
    card.same("22 bytes written that wait 179", write(0, 22, 179, 4099), Refused(5));
    card.same("5 before 9, written", write(0, 22, 179, 0), Refused(5));
    card.same("10 before 5, written", write(8, 64, 255, 5000), Refused(10));
}
