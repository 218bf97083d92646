//! The chain: its slaves in every column, from the far end to the master.

use super::frame::{registers_of, CODES, MOST_BANKS};
use super::phase::Met;
use super::rows::{has_bad_byte, is_too_long};
use super::slave::Slave;
use super::Outcome::{self, Made, Refused};

const MOST_SLAVES: usize = 16;

/// "Row bytes overwritten by a job are not judged before it": those of cds are not.
fn refusal(
    slaves: usize,
    banks: &[u8],
    rights: &[u8],
    waits: &[u8],
    registers: &[u8],
    counts: &[u32],
    [cdm, cds]: [&[u8]; 2],
) -> Option<u8> {
    if slaves > MOST_SLAVES {
        return Some(1);
    }
    if banks.len() != slaves || banks.iter().any(|number| !(1..=MOST_BANKS).contains(number)) {
        return Some(19);
    }
    let bytes: usize = banks.iter().map(|&number| registers_of(number)).sum();
    if registers.len() != bytes {
        return Some(2);
    }
    if rights.len() != bytes {
        return Some(3);
    }
    if rights.iter().any(|&right| right > 3) {
        return Some(4);
    }
    if waits.len() != slaves {
        return Some(18);
    }
    if counts.len() != CODES * slaves {
        return Some(21);
    }
    if is_too_long(cdm) || is_too_long(cds) {
        return Some(5);
    }
    if cdm.len() != cds.len() {
        return Some(6);
    }
    has_bad_byte(cdm).then_some(7)
}

/// A chain as it is at power-on: of the registers and rights that are left every slave
/// takes its own.
fn power_on<'a>(
    banks: &[u8],
    mut rights: &'a [u8],
    waits: &[u8],
    mut registers: &'a mut [u8],
) -> Vec<Slave<'a>> {
    let slave = |(&banks, &wait)| {
        let (its_rights, left) = rights.split_at(registers_of(banks));
        rights = left;
        let (its_registers, left) =
            std::mem::take(&mut registers).split_at_mut(registers_of(banks));
        registers = left;
        Slave::at_power_on(banks, its_rights, wait, its_registers)
    };
    banks.iter().zip(waits).map(slave).collect()
}

/// The phases that the slaves of a chain meet over a master row.
pub fn phases(banks: &[u8], rights: &[u8], waits: &[u8], registers: &mut [u8], cdm: &[u8]) -> Met {
    let mut chain = power_on(banks, rights, waits, registers);
    let mut met = Met::none();
    for &bit in cdm {
        chain.iter().for_each(|slave| met.meet(slave.phase()));
        chain.iter_mut().fold(0, |seen, slave| slave.step(bit, seen));
    }
    met
}

/// Runs the chain from power-on over a master row. The counts are those of this run alone.
#[allow(clippy::too_many_arguments)]
pub fn run(
    slaves: usize,
    banks: &[u8],
    rights: &[u8],
    waits: &[u8],
    registers: &mut [u8],
    counts: &mut [u32],
    cdm: &[u8],
    cds: &mut [u8],
) -> Outcome {
    if let Some(number) = refusal(slaves, banks, rights, waits, registers, counts, [cdm, cds]) {
        return Refused(number);
    }
    let mut chain = power_on(banks, rights, waits, registers);
    for (&bit, answer) in cdm.iter().zip(cds.iter_mut()) {
        *answer = chain.iter_mut().fold(0, |seen, slave| slave.step(bit, seen));
    }
    for (places, slave) in counts.chunks_exact_mut(CODES).zip(&chain) {
        places.copy_from_slice(&slave.executed);
    }
    Made(cdm.len())
}
