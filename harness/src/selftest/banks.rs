//! Banks, worked by hand: chosen, not held, of one slave and of several, at the border
//! between a bank and the fixed registers, and the refusals that came with them.

use super::Card;
use crate::conditions::has_its_bank;
use model::account::account;
use model::entry::{Entry, Kind, ENTRY_BYTES};
use model::list::list;
use model::replay::{reads_show_what_stood, replay};
use model::Outcome::{self, Made, Refused};
use model::{build_read, build_write, run};

pub fn tried(card: &mut Card) {
    two_banks(card);
    not_held(card);
    one_bank(card);
    over_the_border(card);
    from_the_register(card);
    wrong_check(card);
    of_another_id(card);
    rights_of_each(card);
    opened_late(card);
    conditions(card);
    refused_runs(card);
}

/// What an entry is held to: kind, ID, address, bank and value.
type Told = (Kind, u8, u8, u8, u8);

fn told(entries: &[Entry]) -> Vec<Told> {
    let tell = |e: &Entry| (e.kind, e.id, e.address, e.bank, e.value);
    entries.iter().map(tell).collect()
}

/// The entries of frames, with the locks of so many slaves and an end for each but the
/// last.
fn in_frames(slaves: usize, frames: &[&[Told]]) -> Vec<Told> {
    let lock = (Kind::Lock, 0, 0, 0, slaves as u8);
    let locked: Vec<Vec<Told>> = frames.iter().map(|frame| [&[lock], *frame].concat()).collect();
    locked.join(&(Kind::End, 0, 0, 0, 0))
}

fn read(id: u8, address: u8, count: usize) -> Vec<u8> {
    let mut row = vec![0; 32 + 14 * count];
    build_read(id, address, count, 0, &mut row);
    row
}

fn write(id: u8, address: u8, bytes: &[u8]) -> Vec<u8> {
    let mut row = vec![0; 32 + 14 * bytes.len()];
    build_write(id, address, bytes, 0, &mut row);
    row
}

/// Slaves that do not wait: their banks, registers and rights.
struct Chain<'a> {
    banks: &'a [u8],
    registers: Vec<u8>,
    rights: Vec<u8>,
}

/// Slaves whose register at place n holds n, modulo 64, but for the bank registers, which
/// hold these numbers; all rights are 3.
fn chain<'a>(banks: &'a [u8], chosen: &[u8]) -> Chain<'a> {
    let mut registers = Vec::new();
    for (&banks, &chosen) in banks.iter().zip(chosen) {
        let numbers = |_| (0..64).collect::<Vec<u8>>();
        registers.extend((0..=banks).flat_map(numbers));
        let bank_register = registers.len() - 64;
        registers[bank_register] = chosen;
    }
    let rights = vec![3; registers.len()];
    Chain { banks, registers, rights }
}

impl Chain<'_> {
    /// Runs it over a row: the list and the account are as told, and replay agrees. Gives
    /// the registers that it leaves.
    fn lists(&self, card: &mut Card, what: &str, cdm: &[u8], wanted: &[&[Told]]) -> Vec<u8> {
        let (slaves, waits) = (self.banks.len(), vec![0; self.banks.len()]);
        let (mut left, mut cds) = (self.registers.clone(), vec![9; cdm.len()]);
        let counts = &mut vec![0; 4 * slaves];
        let made = run(slaves, self.banks, &self.rights, &waits, &mut left, counts, cdm, &mut cds);
        card.same(&format!("{what}: made"), made, Made(cdm.len()));
        let entries = list(cdm, &cds, 0);
        let account = account(self.banks, &self.rights, &waits, &self.registers, cdm);
        card.same(&format!("{what}: list"), told(&entries), in_frames(slaves, wanted));
        card.same(&format!("{what}: account"), &account.entries, &entries);
        card.same(&format!("{what}: registers"), &account.registers, &left);
        let replayed = replay(self.banks, &self.registers, &entries);
        card.same(&format!("{what}: replay"), &replayed, &left);
        let reads = reads_show_what_stood(self.banks, &self.registers, &entries);
        card.same(&format!("{what}: reads"), reads, true);
        left
    }

    /// The places that a run changed, and what they hold then.
    fn changed(&self, left: &[u8]) -> Vec<(usize, u8)> {
        let places = 0..left.len();
        places.filter(|&at| left[at] != self.registers[at]).map(|at| (at, left[at])).collect()
    }
}

/// Two banks, the first one shown: a byte goes there, the other bank is chosen, and the
/// next byte at the same address goes to that one.
fn two_banks(card: &mut Card) {
    let two = chain(&[2], &[0]);
    let frames = [write(0, 5, &[0xA0]), write(0, 64, &[1]), write(0, 5, &[0xA1]), read(0, 5, 1)];
    let wanted: [&[Told]; 4] = [
        &[(Kind::Written, 0, 5, 255, 0xA0)],
        &[(Kind::Written, 0, 64, 0, 1)],
        &[(Kind::Written, 0, 5, 1, 0xA1)],
        &[(Kind::Read, 0, 5, 1, 0xA1)],
    ];
    let left = two.lists(card, "two banks", &frames.concat(), &wanted);
    let changed = vec![(5, 0xA0), (64 + 5, 0xA1), (128, 1)];
    card.same("a byte in each bank, then the choice", two.changed(&left), changed);
}

/// A number that no bank has shuts 0 to 63, for reads and for writes, until another is
/// chosen; the fixed registers stay open.
fn not_held(card: &mut Card) {
    let three = chain(&[3], &[7]);
    let first = [read(0, 0, 1), write(0, 63, &[1]), write(0, 64, &[3]), write(0, 9, &[1])];
    let then = [read(0, 65, 1), write(0, 64, &[2]), write(0, 9, &[4])];
    let wanted: [&[Told]; 7] = [
        &[(Kind::Refused, 0, 0, 255, 0)],
        &[(Kind::Refused, 0, 63, 255, 1)],
        &[(Kind::Written, 0, 64, 0, 3)],
        &[(Kind::Refused, 0, 9, 3, 1)],
        &[(Kind::Read, 0, 65, 0, 1)],
        &[(Kind::Written, 0, 64, 0, 2)],
        &[(Kind::Written, 0, 9, 2, 4)],
    ];
    let row = [first.concat(), then.concat()].concat();
    let left = three.lists(card, "a bank that is not held", &row, &wanted);
    card.same("its bytes", three.changed(&left), vec![(128 + 9, 4), (192, 2)]);
}

/// "If only one bank is implemented, read and write access to BSEL are refused", and a
/// sequence ends behind 63. What was lent there names the bank all the same.
fn one_bank(card: &mut Card) {
    let shown = chain(&[1], &[0]);
    let frames = [write(0, 64, &[0]), read(0, 64, 1), read(0, 63, 2), read(0, 65, 1)];
    let wanted: [&[Told]; 4] = [
        &[(Kind::Refused, 0, 64, 0, 1)],
        &[(Kind::Refused, 0, 64, 0, 0)],
        &[(Kind::Read, 0, 63, 255, 63), (Kind::Closed, 0, 63, 255, 0)],
        &[(Kind::Read, 0, 65, 0, 1)],
    ];
    let left = shown.lists(card, "one bank", &frames.concat(), &wanted);
    card.same("nothing changed", shown.changed(&left), vec![]);
    for number in [1, 64, 255] {
        let shut = chain(&[1], &[number]);
        let frames = [read(0, 0, 1), write(0, 64, &[0]), write(0, 63, &[1])];
        let wanted: [&[Told]; 3] = [
            &[(Kind::Refused, 0, 0, 255, 0)],
            &[(Kind::Refused, 0, 64, 0, 1)],
            &[(Kind::Refused, 0, 63, 255, 1)],
        ];
        shut.lists(card, &format!("one bank, {number} lent"), &frames.concat(), &wanted);
    }
}

/// A sequence goes from 62 over the bank register to 65, and is not held up by what it
/// chooses there; its bytes at 62 and 63 are still in the bank before.
fn over_the_border(card: &mut Card) {
    let two = chain(&[2], &[1]);
    let row = [write(0, 62, &[0xA0, 0xA1, 9, 0xA2]), read(0, 62, 1)].concat();
    let wanted: [&[Told]; 2] = [
        &[
            (Kind::Written, 0, 62, 255, 0xA0),
            (Kind::Written, 0, 63, 255, 0xA1),
            (Kind::Written, 0, 64, 0, 9),
            (Kind::Written, 0, 65, 0, 0xA2),
        ],
        &[(Kind::Refused, 0, 62, 9, 0)],
    ];
    let left = two.lists(card, "over the border", &row, &wanted);
    let changed = vec![(64 + 62, 0xA0), (64 + 63, 0xA1), (128, 9), (129, 0xA2)];
    card.same("its bytes", two.changed(&left), changed);
    let read_over: [&[Told]; 1] =
        [&[(Kind::Read, 0, 63, 255, 63), (Kind::Read, 0, 64, 0, 1), (Kind::Read, 0, 65, 0, 1)]];
    two.lists(card, "read over the border", &read(0, 63, 3), &read_over);
    let mut shut = chain(&[2], &[1]);
    shut.rights[128] = 2;
    let closed: [&[Told]; 1] = [&[(Kind::Read, 0, 63, 255, 63), (Kind::Closed, 0, 63, 255, 0)]];
    shut.lists(card, "no right behind the border", &read(0, 63, 2), &closed);
}

/// A sequence that begins with the choice goes on at 65, in the fixed registers.
fn from_the_register(card: &mut Card) {
    let eight = chain(&[8], &[0]);
    let row = [write(0, 64, &[7, 0xA0, 0xA1]), read(0, 63, 2)].concat();
    let wanted: [&[Told]; 2] = [
        &[
            (Kind::Written, 0, 64, 0, 7),
            (Kind::Written, 0, 65, 0, 0xA0),
            (Kind::Written, 0, 66, 0, 0xA1),
        ],
        &[(Kind::Read, 0, 63, 7, 63), (Kind::Read, 0, 64, 0, 7)],
    ];
    let left = eight.lists(card, "64 and on", &row, &wanted);
    card.same("its bytes", eight.changed(&left), vec![(512, 7), (513, 0xA0), (514, 0xA1)]);
}

/// A choice with a wrong check chooses nothing, and the sequence ends.
fn wrong_check(card: &mut Card) {
    let two = chain(&[2], &[0]);
    let mut bad = write(0, 64, &[1]);
    bad[44] ^= 1;
    let wanted: [&[Told]; 2] = [
        &[(Kind::WriteBad, 0, 64, 0, 1), (Kind::Closed, 0, 64, 0, 0)],
        &[(Kind::Written, 0, 5, 255, 0xA0)],
    ];
    let left = two.lists(card, "a wrong check", &[bad, write(0, 5, &[0xA0])].concat(), &wanted);
    card.same("still the first bank", two.changed(&left), vec![(5, 0xA0)]);
}

/// Each ID has a bank of its own; the far slave has four banks, the near one two.
fn of_another_id(card: &mut Card) {
    let both = chain(&[4, 2], &[0, 0]);
    let frames = [write(0, 64, &[3]), write(1, 7, &[0xA1]), write(1, 64, &[1])];
    let bytes = [write(0, 7, &[0xA0]), read(1, 7, 1)];
    let wanted: [&[Told]; 5] = [
        &[(Kind::Written, 0, 64, 0, 3)],
        &[(Kind::Written, 1, 7, 255, 0xA1)],
        &[(Kind::Written, 1, 64, 0, 1)],
        &[(Kind::Written, 0, 7, 3, 0xA0)],
        &[(Kind::Read, 1, 7, 1, 7)],
    ];
    let row = [frames.concat(), bytes.concat()].concat();
    let left = both.lists(card, "a bank for each ID", &row, &wanted);
    let near = 64 * 5;
    let changed = vec![(64 * 3 + 7, 0xA0), (64 * 4, 3), (near + 7, 0xA1), (near + 64 * 2, 1)];
    card.same("its bytes", both.changed(&left), changed);
}

/// A bank's bytes have rights of their own.
fn rights_of_each(card: &mut Card) {
    let mut two = chain(&[2], &[0]);
    two.rights[..64].fill(1);
    two.rights[64 + 6] = 0;
    let frames = [write(0, 5, &[1]), write(0, 64, &[1]), write(0, 5, &[1, 2]), read(0, 6, 1)];
    let wanted: [&[Told]; 4] = [
        &[(Kind::Refused, 0, 5, 255, 1)],
        &[(Kind::Written, 0, 64, 0, 1)],
        &[(Kind::Written, 0, 5, 1, 1), (Kind::Closed, 0, 5, 1, 0)],
        &[(Kind::Refused, 0, 6, 1, 0)],
    ];
    two.lists(card, "rights of each bank", &frames.concat(), &wanted);
}

/// Opened behind the choice the bank is 255, until the next choice in the late list.
fn opened_late(card: &mut Card) {
    let frames = [write(0, 64, &[1]), read(0, 5, 1), write(0, 64, &[0]), read(0, 5, 1)];
    let cdm = frames.concat();
    let mut cds = vec![0; cdm.len()];
    run(1, &[2], &[3; 192], &[0], &mut [0; 192], &mut [0; 4], &cdm, &mut cds);
    let banks = |opening| -> Vec<u8> {
        let entries = list(&cdm, &cds, opening);
        entries.iter().filter(|e| e.kind == Kind::Read).map(|e| e.bank).collect()
    };
    card.same("opened at once", banks(0), vec![1, 0]);
    card.same("opened behind the choice", banks(frames[0].len()), vec![255, 0]);
    card.same("opened behind both", banks(cdm.len() - 46), vec![255]);
}

/// Of all numbers one alone is the bank of an entry.
fn conditions(card: &mut Card) {
    let of =
        |kind, id, address, value| Entry::of(kind).place(id, address).value(value).bytes().to_vec();
    let before = [
        of(Kind::Written, 2, 64, 5),
        of(Kind::Written, 3, 64, 6),
        of(Kind::Written, 2, 65, 7),
        of(Kind::WriteBad, 2, 64, 8),
        of(Kind::Echo, 2, 64, 9),
        of(Kind::Read, 2, 64, 10),
    ];
    let before = before.concat();
    card.same("bytes of an entry", before.len(), 6 * ENTRY_BYTES);
    let fitting = |kind, id, address| -> Vec<u8> {
        let fits = |&bank: &u8| {
            has_its_bank(&before, &Entry::of(kind).place(id, address).bank(bank).bytes())
        };
        (0..=u8::MAX).filter(fits).collect()
    };
    card.same("its last choice", fitting(Kind::Read, 2, 63), vec![5]);
    card.same("of another ID", fitting(Kind::Mute, 3, 0), vec![6]);
    card.same("no choice", fitting(Kind::Absent, 4, 0), vec![255]);
    card.same("no bank at 64", fitting(Kind::Written, 2, 64), vec![0]);
    card.same("no address", fitting(Kind::Command, 2, 0), vec![0]);
}

/// 19 stands after 1 and before 2; 2 and 3 go by the table.
fn refused_runs(card: &mut Card) {
    let refusal = |slaves: usize, banks: &[u8], registers: usize, rights: usize| -> Outcome {
        let (waits, counts) = (vec![0; slaves.min(20)], &mut vec![0; 4 * slaves.min(20)]);
        let (rights, registers) = (vec![3; rights], &mut vec![0; registers]);
        run(slaves, banks, &rights, &waits, registers, counts, &[], &mut [])
    };
    card.same("1 and 8 banks", refusal(2, &[1, 8], 128 + 576, 128 + 576), Made(0));
    card.same("no slave", refusal(0, &[], 0, 0), Made(0));
    card.same("no slave, one number", refusal(0, &[1], 128, 128), Refused(19));
    card.same("a number missing", refusal(2, &[1], 128, 128), Refused(19));
    card.same("a number too many", refusal(1, &[1, 1], 256, 256), Refused(19));
    card.same("no bank", refusal(2, &[1, 0], 192, 192), Refused(19));
    card.same("nine banks", refusal(2, &[9, 1], 768, 768), Refused(19));
    card.same("1 before 19", refusal(17, &[], 0, 0), Refused(1));
    card.same("19 before 2", refusal(1, &[0], 128, 128), Refused(19));
    card.same("registers of one bank", refusal(1, &[2], 128, 192), Refused(2));
    card.same("rights of one bank", refusal(1, &[2], 192, 128), Refused(3));
    card.same("2 before 3", refusal(1, &[2], 128, 128), Refused(2));
    card.same("a byte too many", refusal(1, &[8], 577, 576), Refused(2));
}
