//! Commands, worked by hand: acknowledged, executed, withheld, cut; counted for whom they
//! are; acknowledgements that do not fit, and the refusals that came with them.

use super::Card;
use crate::conditions::commanded;
use model::account::account;
use model::entry::{Entry, Kind};
use model::list::list;
use model::replay::executions;
use model::Outcome::{self, Made, Refused};
use model::{build_command, build_write, run};

pub fn tried(card: &mut Card) {
    addressed(card);
    broadcasts(card);
    who_is_there(card);
    not_executed(card);
    cuts(card);
    one_after_the_other(card);
    odd_answers(card);
    unjudged_answers(card);
    counted_lists(card);
    built(card);
    refused_runs(card);
}

/// Fourteen zeros and S, and their answers.
const START: &str = "00000000000000 1";
const AT_START: &str = "00000000000000 0";

fn bits(drawn: &str) -> Vec<u8> {
    drawn.bytes().filter(|byte| *byte != b' ').map(|byte| byte - b'0').collect()
}

/// A row drawn from the header on, and one drawn from its answers on.
fn sent(drawn: &str) -> Vec<u8> {
    bits(&format!("{START} {drawn}"))
}

fn answered(drawn: &str) -> Vec<u8> {
    bits(&format!("{AT_START} {drawn}"))
}

/// An entry of the frame whose S stands in column 14.
fn entry(kind: Kind, column: usize, cmd: u8, value: u8) -> Entry {
    Entry::of(kind).at(column).start(14).place(cmd, 0).value(value)
}

fn lock(value: u8) -> Entry {
    entry(Kind::Lock, 23, 0, value)
}

fn command(cmd: u8, ids: u8) -> Entry {
    entry(Kind::Command, 29, cmd, ids)
}

/// The counts of so many slaves that are 1 for these, of this code, and else 0.
fn counts(slaves: usize, cmd: usize, executed: &[usize]) -> Vec<u32> {
    let mut counts = vec![0; 4 * slaves];
    executed.iter().for_each(|slave| counts[4 * slave + cmd] = 1);
    counts
}

/// What so many slaves, with one bank each and all rights 3, answer to a row and leave in
/// counts that held 77 before.
fn chain(slaves: usize, cdm: &[u8]) -> (Vec<u8>, Vec<u32>) {
    let (banks, rights, waits) = (vec![1; slaves], vec![3; 128 * slaves], vec![0; slaves]);
    let (registers, mut counts) = (&mut vec![0; 128 * slaves], vec![77; 4 * slaves]);
    let mut cds = vec![9; cdm.len()];
    let made = run(slaves, &banks, &rights, &waits, registers, &mut counts, cdm, &mut cds);
    assert_eq!(made, Made(cdm.len()));
    (cds, counts)
}

/// Runs so many slaves: answers, counts, list and account are as told, and the listed
/// executions are the counts.
fn runs(
    card: &mut Card,
    what: &str,
    slaves: usize,
    rows: [&[u8]; 2],
    listed: &[Entry],
    wanted: &[u32],
) {
    let [cdm, answers] = rows;
    let (cds, counts) = chain(slaves, cdm);
    card.same(&format!("{what}: answers"), &cds[..], answers);
    card.same(&format!("{what}: counts"), &counts[..], wanted);
    let entries = list(cdm, &cds, 0);
    card.same(&format!("{what}: list"), &entries[..], listed);
    card.same(&format!("{what}: listed executions"), executions(slaves, &entries), counts);
    let (banks, rights, waits) = (vec![1; slaves], vec![3; 128 * slaves], vec![0; slaves]);
    let account = account(&banks, &rights, &waits, &vec![0; 128 * slaves], cdm);
    card.same(&format!("{what}: account"), &account.entries[..], listed);
    card.same(&format!("{what}: executions of the account"), &account.executed[..], wanted);
}

/// The first bit of IDS is ID 0, whose acknowledgement stands in the column of S; 001:
/// "IDS = 1000 0100" names the IDs 0 and 5.
fn addressed(card: &mut Card) {
    let cdm = sent("0 10000000 01 0001 1 0000000 1");
    let cds = answered("1 00000000 00 0000 1 0000000 0");
    let listed = [lock(1), command(1, 0x80), entry(Kind::Executed, 38, 1, 0x80)];
    runs(card, "CMD 1 for ID 0", 1, [&cdm, &cds], &listed, &[0, 1, 0, 0]);
    let cdm = sent("0 10000100 10 0001 1 0000000 1");
    let cds = answered("1 11111000 00 0000 1 0000100 0");
    let listed = [lock(8), command(2, 0x84), entry(Kind::Executed, 38, 2, 0x84)];
    let eight = answered("1 11111110 00 0000 1 0000100 0");
    runs(card, "001's example", 8, [&cdm, &eight], &listed, &counts(8, 2, &[0, 5]));
    let listed = [lock(6), listed[1], listed[2]];
    runs(card, "001's example, six", 6, [&cdm, &cds], &listed, &counts(6, 2, &[0, 5]));
    let cdm = sent("0 00000001 11 0110 1 0000000 1");
    let cds = answered("1 11111110 00 0000 0 0000001 0");
    let listed = [lock(8), command(3, 1), entry(Kind::Executed, 38, 3, 1)];
    runs(card, "the last bit is ID 7", 8, [&cdm, &cds], &listed, &counts(8, 3, &[7]));
}

/// EX stands right behind S, nobody acknowledges, and slaves without a number execute too.
fn broadcasts(card: &mut Card) {
    let cdm = sent("0 00000000 10 1001 1 1");
    let cds = answered("1 11111111 00 0000 0 0");
    let listed = [lock(9), command(2, 0), entry(Kind::Executed, 31, 2, 0)];
    let all: Vec<usize> = (0..16).collect();
    runs(card, "CMD 2 for nine", 9, [&cdm, &cds], &listed, &counts(9, 2, &all[..9]));
    runs(card, "CMD 2 for sixteen", 16, [&cdm, &cds], &listed, &counts(16, 2, &all));
    let nobody = answered("0 00000000 00 0000 0 0");
    let listed = [lock(0), listed[1], listed[2]];
    runs(card, "CMD 2 for nobody", 0, [&cdm, &nobody], &listed, &[]);
    let cdm = sent("0 00000000 00 1111 1 1");
    let cds = answered("1 00000000 00 0000 0 0");
    let listed = [lock(1), command(0, 0), entry(Kind::Executed, 31, 0, 0)];
    runs(card, "CMD 0 for one", 1, [&cdm, &cds], &listed, &[1, 0, 0, 0]);
}

/// An ID that is named and not there does not answer, and that fits; slaves without a
/// number are never named.
fn who_is_there(card: &mut Card) {
    let cdm = sent("0 11100000 10 0101 1 0000000 1");
    let cds = answered("1 10000000 00 0000 1 1000000 0");
    let listed = [lock(2), command(2, 0xE0), entry(Kind::Executed, 38, 2, 0xE0)];
    runs(card, "ID 2 is not there", 2, [&cdm, &cds], &listed, &counts(2, 2, &[0, 1]));
    let nobody = answered("0 00000000 00 0000 0 0000000 0");
    let listed = [lock(0), listed[1], listed[2]];
    runs(card, "nobody is there", 0, [&cdm, &nobody], &listed, &[]);
    let cdm = sent("0 11111111 11 1001 1 0000000 1");
    let cds = answered("1 11111111 00 0000 1 1111111 0");
    let listed = [lock(9), command(3, 0xFF), entry(Kind::Executed, 38, 3, 0xFF)];
    let eight: Vec<usize> = (0..8).collect();
    runs(card, "all that are named", 10, [&cdm, &cds], &listed, &counts(10, 3, &eight));
}

/// EX = 0 and S = 0; what the master sends between S and EX, or behind EX, is nothing.
fn not_executed(card: &mut Card) {
    let none = [0; 4];
    let end = |column| entry(Kind::End, column, 0, 0);
    let cdm = sent("0 10000000 01 0001 1 1111111 0 11 00000000000000");
    let cds = answered("1 00000000 00 0000 1 0000000 0 00 00000000000000");
    let withheld = entry(Kind::Withheld, 38, 1, 0x80);
    let listed = [lock(1), command(1, 0x80), withheld, end(54)];
    runs(card, "EX = 0", 1, [&cdm, &cds], &listed, &none);
    let cdm = sent("0 10000000 01 0001 1 00000000000000 1");
    let cds = answered("1 00000000 00 0000 1 00000000000000 0");
    let listed = [lock(1), command(1, 0x80), withheld, end(44)];
    runs(card, "fourteen zeros behind S", 1, [&cdm, &cds], &listed, &none);
    let cdm = sent("0 10000000 01 0001 0 1111111 1 1");
    let cds = answered("1 00000000 00 0000 0 0000000 0 0");
    runs(card, "S = 0", 1, [&cdm, &cds], &[lock(1), command(1, 0x80)], &none);
    let cdm = sent("0 00000000 10 1001 0 1 1");
    let cds = answered("1 00000000 00 0000 0 0 0");
    runs(card, "S = 0 of a broadcast", 1, [&cdm, &cds], &[lock(1), command(2, 0)], &none);
    let cdm = sent("0 00000000 10 1001 1 0 1111111");
    let cds = answered("1 00000000 00 0000 0 0 0000000");
    let listed = [lock(1), command(2, 0), entry(Kind::Withheld, 31, 2, 0)];
    runs(card, "EX = 0 of a broadcast", 1, [&cdm, &cds], &listed, &none);
    let cdm = sent("0 10000000 01 0001 1 1010101 1 1 1111111 1");
    let cds = answered("1 00000000 00 0000 1 0000000 0 0 0000000 0");
    let listed = [lock(1), command(1, 0x80), entry(Kind::Executed, 38, 1, 0x80)];
    runs(card, "ones behind EX", 1, [&cdm, &cds], &listed, &[0, 1, 0, 0]);
    let cdm = sent("0 10000000 01 0000 1 0000000 1");
    let cds = answered("1 00000000 00 0000 0 0000000 0");
    let listed = [lock(1), entry(Kind::BadHead, 29, 0, 0)];
    runs(card, "a wrong check", 1, [&cdm, &cds], &listed, &none);
}

/// Cut in any column before EX a command is listed with its header, and not executed.
fn cuts(card: &mut Card) {
    let cdm = sent("0 11000000 10 1011 1 0000000 1");
    let cds = answered("1 10000000 00 0000 1 1000000 0");
    let listed = [lock(2), command(2, 0xC0), entry(Kind::Executed, 38, 2, 0xC0)];
    for length in 0..=cdm.len() {
        let rows = [&cdm[..length], &cds[..length]];
        let entries = listed.iter().filter(|entry| entry.column < length).count();
        let wanted = counts(2, 2, if length == cdm.len() { &[0, 1] } else { &[] });
        runs(card, &format!("cut at {length}"), 2, rows, &listed[..entries], &wanted);
    }
}

/// Executions add up, and a register access between commands is what it was.
fn one_after_the_other(card: &mut Card) {
    let mut cdm = Vec::new();
    let mut push = |ids, cmd, execute| {
        let mut row = [0; 39];
        let Made(columns) = build_command(ids, cmd, execute, &mut row) else { unreachable!() };
        cdm.extend_from_slice(&row[..columns]);
    };
    push(0, 1, true);
    push(0x40, 1, true);
    push(0x40, 3, false);
    push(0xC0, 3, true);
    push(0x80, 1, true);
    let mut write = [0; 46];
    build_write(1, 0x44, &[0x5A], 0, &mut write);
    cdm.extend_from_slice(&write);
    cdm.extend_from_slice(&[0; 14]);
    let (cds, counts) = chain(2, &cdm);
    card.same("counts of five commands", &counts[..], &[0, 2, 0, 1, 0, 2, 0, 1]);
    let entries = list(&cdm, &cds, 0);
    let kinds: Vec<Kind> = entries
        .iter()
        .map(|entry| entry.kind)
        .filter(|kind| ![Kind::Lock, Kind::Command, Kind::End].contains(kind))
        .collect();
    let [done, not_done] = [Kind::Executed, Kind::Withheld];
    card.same("five commands", kinds, vec![done, done, not_done, done, done, Kind::Written]);
    card.same("five commands, counted", executions(2, &entries), counts);
}

/// Answers of no chain to CMD 2 for the IDs 0 and 5; eight, or two, are locked.
fn odd_answers(card: &mut Card) {
    let executed = sent("0 10000100 10 0001 1 0000000 1");
    let withheld = sent("0 10000100 10 0001 1 0000000 0");
    let mut tried = |what: &str, locks: u8, answers: &str, value: u8| {
        let ones = "1".repeat(locks.into());
        let cds = answered(&format!("{ones:0<9} 00 0000 {answers} 0"));
        let odd = entry(Kind::AckOdd, 37, 2, value);
        for (cdm, kind) in [(&executed, Kind::Forced), (&withheld, Kind::Withheld)] {
            let listed = [lock(locks), command(2, 0x84), odd, entry(kind, 38, 2, 0x84)];
            card.same(what, &list(cdm, &cds, 0)[..], &listed[..]);
            let tell = |e: &Entry| (e.kind as u8, e.column, e.id, e.value);
            let told = listed[2..].iter().map(tell).collect();
            card.same(&format!("{what}, by its bits"), commanded(cdm, &cds, 14), told);
            card.same(&format!("{what}, counted"), executions(8, &listed), vec![0; 32]);
        }
        let cut = list(&executed[..38], &cds[..38], 0);
        card.same(&format!("{what}, cut behind it"), cut.last().copied(), Some(odd));
        let sooner = list(&executed[..37], &cds[..37], 0);
        card.same(
            &format!("{what}, cut before it"),
            sooner.last().copied(),
            Some(command(2, 0x84)),
        );
    };
    tried("ID 5 is silent", 8, "1 0000000", 0x80);
    tried("both are silent", 8, "0 0000000", 0);
    tried("ID 1 speaks too", 8, "1 1000100", 0xC4);
    tried("a column late", 8, "0 1000010", 0x42);
    tried("all speak", 9, "1 1111111", 0xFF);
    tried("ID 5 is not locked, and speaks", 2, "1 0000100", 0x84);
    tried("ID 7 is not locked, and speaks", 2, "1 0000001", 0x81);
    tried("nobody is locked, and one speaks", 0, "1 0000000", 0x80);
}

/// The answer at EX is not judged, of a broadcast that at S neither.
fn unjudged_answers(card: &mut Card) {
    let cdm = sent("0 10000100 10 0001 1 0000000 1");
    let cds = answered("1 10000000 00 0000 1 0000000 1");
    let listed = [lock(2), command(2, 0x84), entry(Kind::Executed, 38, 2, 0x84)];
    card.same("an answer at EX", &list(&cdm, &cds, 0)[..], &listed[..]);
    let cdm = sent("0 00000000 10 1001 1 1");
    let cds = answered("1 10000000 00 0000 1 1");
    let listed = [lock(2), command(2, 0), entry(Kind::Executed, 31, 2, 0)];
    card.same("answers to a broadcast", &list(&cdm, &cds, 0)[..], &listed[..]);
}

/// Executions of a list: `executed` alone, and for whom it is.
fn counted_lists(card: &mut Card) {
    let of = |kind, cmd, ids| executions(10, &[entry(kind, 38, cmd, ids)]);
    card.same("executed for ID 0", of(Kind::Executed, 1, 0x80), counts(10, 1, &[0]));
    card.same("executed for 0 and 5", of(Kind::Executed, 1, 0x84), counts(10, 1, &[0, 5]));
    card.same("executed for ID 7", of(Kind::Executed, 0, 1), counts(10, 0, &[7]));
    let all: Vec<usize> = (0..10).collect();
    card.same("executed for all", of(Kind::Executed, 3, 0), counts(10, 3, &all));
    for kind in [Kind::Command, Kind::Withheld, Kind::AckOdd, Kind::Forced] {
        card.same(&format!("{kind:?} counts nothing"), of(kind, 1, 0), vec![0; 40]);
    }
    let twice = [entry(Kind::Executed, 38, 2, 0x80); 2];
    card.same("executed twice", executions(1, &twice), vec![0, 0, 2, 0]);
}

/// A built row goes on to EX; its first 30 columns are the header alone.
fn built(card: &mut Card) {
    let mut row = [9; 40];
    card.same("a broadcast", build_command(0, 2, true, &mut row), Made(32));
    card.same("its columns", &row[..32], &sent("0 00000000 10 1001 1 1")[..]);
    card.same("the byte behind it", row[32], 9);
    card.same("EX = 0", build_command(0, 2, false, &mut row[..32]), Made(32));
    card.same("its columns", &row[..32], &sent("0 00000000 10 1001 1 0")[..]);
    card.same("a column short", build_command(0, 2, true, &mut row[..31]), Refused(9));
    card.same("addressed", build_command(0x84, 2, true, &mut row), Made(39));
    card.same("its columns", &row[..39], &sent("0 10000100 10 0001 1 0000000 1")[..]);
    card.same("the byte behind it", row[39], 9);
    card.same("EX = 0", build_command(0x84, 2, false, &mut row[..39]), Made(39));
    card.same("its columns", &row[..39], &sent("0 10000100 10 0001 1 0000000 0")[..]);
    card.same("a column short", build_command(0x84, 2, true, &mut row[..38]), Refused(9));
    let (cds, counts) = chain(6, &row[..30]);
    let listed = vec![lock(6), command(2, 0x84)];
    card.same("the header alone", list(&row[..30], &cds, 0), listed);
    card.same("executes nothing", counts, vec![0; 24]);
}

/// 21 stands after 18 and before 5, and changes no count.
fn refused_runs(card: &mut Card) {
    let run_with = |slaves: usize, places: usize, waits: usize, columns: usize| -> Outcome {
        let (banks, rights, waits) = (vec![1; slaves], vec![3; 128 * slaves], vec![0; waits]);
        let (registers, mut counts) = (&mut vec![0; 128 * slaves], vec![77; places]);
        let (cdm, mut cds) = (vec![0; columns], vec![0; columns]);
        let made = run(slaves, &banks, &rights, &waits, registers, &mut counts, &cdm, &mut cds);
        let is_kept = counts.iter().all(|&count| count == 77);
        assert_eq!(is_kept, places == 0 || made != Made(columns), "{made:?}");
        made
    };
    card.same("four counts", run_with(1, 4, 1, 5), Made(5));
    card.same("no slave, no count", run_with(0, 0, 0, 5), Made(5));
    card.same("no slave, one count", run_with(0, 1, 0, 5), Refused(21));
    for places in [0, 1, 3, 5, 8, 16] {
        card.same(&format!("{places} counts"), run_with(1, places, 1, 5), Refused(21));
    }
    card.same("counts of one slave", run_with(2, 4, 2, 5), Refused(21));
    card.same("sixteen slaves", run_with(16, 64, 16, 5), Made(5));
    card.same("18 before 21", run_with(1, 3, 2, 5), Refused(18));
    card.same("21 before 5", run_with(1, 3, 1, 4097), Refused(21));
    card.same("1 before 21", run_with(17, 3, 17, 5), Refused(1));
}
