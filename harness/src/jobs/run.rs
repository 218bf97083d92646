//! The job that runs a chain over a master row.

use super::Calls;
use crate::bench::{rows, Timed};
use crate::checks::{banks, commands, gives_up, late_opening, must, starts};
use crate::conditions::{bad_byte, too_long};
use crate::counts::{Count, Counts};
use crate::generate::chains::{bank_registers, chain_and_row, chain_of, Chain};
use crate::generate::provoked::{spoil_byte, spoil_length, BAD_ROW_BYTES, TWO_16, TWO_32, TWO_57};
use crate::generate::recordings::two_lengths;
use crate::generate::rows::Known;
use crate::generate::{Marks, Provoked, Random};
use crate::job::{fields, Job, Refusals};
use crate::lent::{Lent, Use, EXECUTED};
use model::account::{account, Account};
use model::chain::phases;
use model::entry::{Entry, Kind};
use model::list::list;
use model::replay::{executions, reads_show_what_stood, replay};
use model::slave::allows;
use model::Outcome::{self, Made};

fields!(Run {
    slaves: usize;
    banks: Banks, rights: Rights, waits: Bytes, registers: Bytes, counts: Counts,
    cdm: Row, cds: Row;
    known: Vec<Known>
});

impl Job for Run {
    const REFUSALS: Refusals<Run> = &[
        (1, |case| case.slaves >= 17),
        (19, |case| case.banks.len() != case.slaves || case.banks.iter().any(|&b| b == 0 || b > 8)),
        (2, |case| case.registers.len() != bytes_of(&case.banks)),
        (3, |case| case.rights.len() != bytes_of(&case.banks)),
        (4, |case| case.rights.iter().any(|right| ![0, 1, 2, 3].contains(right))),
        (18, |case| case.waits.len() != case.slaves),
        (21, |case| case.counts.len() as u128 != 16 * case.slaves as u128),
        (5, |case| too_long(&case.cdm, &case.cds)),
        (6, |case| case.cdm.len() != case.cds.len()),
        (7, |case| bad_byte(&case.cdm)),
    ];

    fn marks() -> Marks {
        OTHER_COUNTS.map(|(mark, _)| mark).into()
    }

    fn make(random: &mut Random, provoked: &Provoked, marks: &mut Marks) -> Run {
        let (mut chain, row) = chain_and_row(random);
        if provoked.has(1) && random.one_in(4) {
            chain.slaves += random.pick(&[256, TWO_16, TWO_32, TWO_57, usize::MAX - 16]);
        } else if provoked.has(1) {
            let slaves = random.pick(&[17, 17, 17, 18, 32, 200]);
            chain = chain_of(random, slaves);
        }
        let counts = counts(random, chain.banks.len(), provoked.has(21), marks);
        spoil_chain(random, &mut chain, provoked);
        let (mut cdm, cds_length) = two_lengths(random, row.cdm, provoked);
        if provoked.has(7) {
            spoil_byte(random, &mut cdm, BAD_ROW_BYTES);
        }
        let cds = random.bytes(cds_length);
        Run {
            slaves: chain.slaves,
            banks: Lent::copy(&chain.banks),
            rights: Lent::copy(&chain.rights),
            waits: Lent::copy(&chain.waits),
            registers: Lent::copy(&chain.registers),
            counts,
            cdm: Lent::copy(&cdm),
            cds: Lent::copy(&cds),
            known: row.known,
        }
    }

    fn call(&mut self, calls: &impl Calls) -> Outcome {
        let Run { slaves, banks, rights, waits, registers, counts, cdm, cds, .. } = self;
        let counts = counts.executed_mut();
        calls.run(*slaves, banks, rights, waits, registers, counts, cdm, cds)
    }

    fn check(&self, left: &Run, outcome: Outcome, random: &mut Random) -> Result<(), String> {
        let Made(_) = outcome else { return Ok(()) };
        let account = self.account();
        let entries = list(&self.cdm, &left.cds, 0);
        let replayed = replay(&self.banks, &self.registers, &entries);
        let reads = reads_show_what_stood(&self.banks, &self.registers, &entries);
        must(entries == account.entries, "the list of honest rows is the chain's account")?;
        must(account.registers == left.registers[..], "the account's registers are the chain's")?;
        must(replayed == left.registers[..], "replay gives the final registers")?;
        must(reads, "reads show what stood there")?;
        let counts = left.counts.executed();
        must(account.executed == counts, "the account's executions are the chain's counts")?;
        let listed = executions(self.slaves, &entries);
        must(listed == counts, "the listed executions, counted, are the chain's counts")?;
        let account: Vec<u8> = account.entries.iter().flat_map(|entry| entry.bytes()).collect();
        starts(&self.cdm, &account)?;
        banks(&account)?;
        gives_up(&self.cdm, &left.cds, &account)?;
        commands(&self.cdm, &left.cds, &account)?;
        let waits =
            |entry: &Entry| entry.kind != Kind::Mute || self.waits[usize::from(entry.id)] > 0;
        must(entries.iter().all(waits), "only a slave that waits is given up")?;
        late_opening(&self.cdm, &left.cds, random)?;
        self.check_two_runs(left, random)
    }

    fn count(&self, left: &Run, _: usize, counts: &mut Counts) {
        let Run { banks, rights, waits, registers, cdm, known, .. } = self;
        let met = phases(banks, rights, waits, &mut registers.clone(), cdm);
        counts.add_phases(Count::SlaveAt, &met);
        let account = self.account().entries;
        counts.add_waits(waits, cdm, known, &account);
        counts.add_banks(banks, rights, registers, &account);
        counts.add_run_commands(self.slaves, cdm, &account, &left.counts.executed());
    }

    fn shown(&self, who: &str, _: usize) -> String {
        format!("  cds after the {who:<7}: {}\n", Use::Row.shown(&self.cds))
    }

    /// Chains of fewer slaves, counted from the far end, or of fewer banks.
    fn smaller(&self) -> Vec<Run> {
        let slaves = (0..self.slaves.min(17)).map(|slaves| self.with_slaves(slaves));
        let banks = (1..8).map(|most| self.with_banks(most));
        slaves.chain(banks.filter(|fewer| fewer.banks[..] != self.banks[..])).collect()
    }

    fn timed() -> Vec<Timed<Run>> {
        let timed = |slaves: usize| {
            rows::timed(slaves).into_iter().map(move |timed| {
                let columns = timed.columns();
                let cases = timed.rows.iter().map(|cdm| Run::of_open_slaves(slaves, &timed, cdm));
                Timed::new(&format!("run, {slaves} slaves"), timed.name, columns, cases.collect())
            })
        };
        [1, 8, 16].into_iter().flat_map(timed).collect()
    }
}

impl Run {
    /// All rights 3, the same waiting number, the same banks and the first one chosen.
    fn of_open_slaves(slaves: usize, timed: &rows::Rows, cdm: &[u8]) -> Run {
        let banks = vec![timed.banks; slaves];
        let mut registers = vec![0x5A; bytes_of(&banks)];
        bank_registers(&banks).for_each(|(place, _)| registers[place] = 0);
        Run {
            slaves,
            banks: Lent::copy(&banks),
            rights: Lent::copy(&vec![3; registers.len()]),
            waits: Lent::copy(&vec![timed.wait; slaves]),
            registers: Lent::copy(&registers),
            counts: Lent::zeros(4 * EXECUTED * slaves),
            cdm: Lent::copy(cdm),
            cds: Lent::zeros(cdm.len()),
            known: Vec::new(),
        }
    }

    fn account(&self) -> Account<'_> {
        account(&self.banks, &self.rights, &self.waits, &self.registers, &self.cdm)
    }

    /// The first so many slaves of its chain.
    fn with_slaves(&self, slaves: usize) -> Run {
        let mut smaller = Run { slaves, ..self.clone() };
        smaller.banks.cut(slaves, usize::MAX);
        let bytes = bytes_of(&smaller.banks);
        smaller.rights.cut(bytes, usize::MAX);
        smaller.waits.cut(slaves, usize::MAX);
        smaller.registers.cut(bytes, usize::MAX);
        smaller.counts.cut(4 * EXECUTED * slaves, usize::MAX);
        smaller
    }

    /// Its slaves with the first so many of their banks.
    fn with_banks(&self, most: u8) -> Run {
        let mut smaller = self.clone();
        let mut end = 0;
        for banks in smaller.banks.iter_mut() {
            let bank = 64 * usize::from(*banks).min(most.into());
            let (from, to) = (end + bank, end + 64 * usize::from(*banks));
            smaller.rights.cut(from, to);
            smaller.registers.cut(from, to);
            *banks = most.min(*banks);
            end = from + 64;
        }
        smaller
    }

    /// "Two runs with the same rights", banks and waits, "and master row that differ only
    /// in registers without the read right give the same answer row"; "in 01's two runs
    /// the bank registers are equal". What stood in the counts does not matter.
    fn check_two_runs(&self, left: &Run, random: &mut Random) -> Result<(), String> {
        let mut other = self.clone();
        for (register, &right) in other.registers.iter_mut().zip(self.rights.iter()) {
            if !allows(right, false) {
                *register = random.next() as u8;
            }
        }
        for (place, _) in bank_registers(&self.banks) {
            other.registers[place] = self.registers[place];
        }
        other.counts.fill(random.next() as u8);
        other.call(&super::Model);
        must(other.cds[..] == left.cds[..], "two runs give the same answers")?;
        must(other.counts[..] == left.counts[..], "two runs give the same counts")
    }
}

/// The bytes that the registers, or the rights, of slaves with these banks have.
fn bytes_of(banks: &[u8]) -> usize {
    banks.iter().map(|&banks| 64 + 64 * usize::from(banks)).sum()
}

/// A length that a table of counts must not have, by the number of slaves.
type OtherCounts = (&'static str, fn(usize) -> usize);

const OTHER_COUNTS: [OtherCounts; 8] = [
    ("one count too many", |slaves| 4 * slaves + 1),
    ("one count too few", |slaves| (4 * slaves).saturating_sub(1)),
    ("no counts", |_| 0),
    ("a count a slave", |slaves| slaves),
    ("a slave too few", |slaves| 4 * slaves.saturating_sub(1)),
    ("a slave too many", |slaves| 4 * slaves + 4),
    ("four times too many", |slaves| 16 * slaves),
    ("many counts", |slaves| 4 * slaves + TWO_16 / 4),
];

/// A table of counts for so many slaves, any numbers in it.
fn counts(random: &mut Random, slaves: usize, is_other: bool, marks: &mut Marks) -> Lent {
    let mut length = 4 * slaves;
    if is_other {
        let (mut mark, other) = random.pick(&OTHER_COUNTS);
        length = other(slaves);
        if length == 4 * slaves {
            (mark, length) = ("one count too many", length + 1);
        }
        marks.push(mark);
    }
    Lent::copy(&random.bytes(EXECUTED * length))
}

/// 19, 2, 3, 4 and 18 as asked for.
fn spoil_chain(random: &mut Random, chain: &mut Chain, provoked: &Provoked) {
    if provoked.has(19) {
        spoil_banks(random, chain);
    }
    if provoked.has(2) {
        spoil_length(random, &mut chain.registers, 7);
    }
    if provoked.has(3) {
        spoil_length(random, &mut chain.rights, 3);
    }
    if provoked.has(4) {
        spoil_byte(random, &mut chain.rights, &[4, 5, 7, 8, 128, 255]);
    }
    if provoked.has(18) {
        spoil_table(random, &mut chain.waits, 0);
    }
}

/// Gives the table of banks a length or a number that it must not have; registers and
/// rights mostly follow it.
fn spoil_banks(random: &mut Random, chain: &mut Chain) {
    if random.one_in(2) && !chain.banks.is_empty() {
        spoil_byte(random, &mut chain.banks, &[0, 0, 9, 9, 10, 128, 255]);
    } else {
        spoil_table(random, &mut chain.banks, 1);
    }
    let bytes = bytes_of(&chain.banks);
    if !random.one_in(4) && bytes < 40_000 {
        chain.rights.resize(bytes, 3);
        chain.registers.resize(bytes, 0);
    }
}

/// Gives a table with one number a slave a length that it must not have.
fn spoil_table(random: &mut Random, table: &mut Vec<u8>, number: u8) {
    let slaves = table.len();
    let far = slaves + random.pick(&[128, 256, 256, TWO_16]);
    let fewer = slaves.saturating_sub(1);
    let length = random.pick(&[0, fewer, fewer, slaves + 1, slaves + 1, 2 * slaves, far]);
    table.resize(if length == slaves { slaves + 1 } else { length }, number);
}
