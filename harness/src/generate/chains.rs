//! Chains and the master rows that they are run over.

use super::random::Random;
use super::rows::{long_access, master_row, MasterRow};
use model::frame::{registers_of, BANK_BYTES};

#[derive(Default)]
pub struct Chain {
    pub slaves: usize,
    pub banks: Vec<u8>,
    pub rights: Vec<u8>,
    pub waits: Vec<u8>,
    pub registers: Vec<u8>,
}

impl Chain {
    /// The banks of the slave with this ID; one where there is none.
    pub fn banks_of(&self, id: usize) -> u8 {
        self.banks.get(id).copied().unwrap_or(1)
    }
}

pub fn chain_of(random: &mut Random, slaves: usize) -> Chain {
    let banks = banks(random, slaves);
    let rights = rights(random, &banks);
    let waits = waits(random, slaves);
    let mut registers = random.bytes(rights.len());
    for (place, banks) in bank_registers(&banks) {
        registers[place] = bank_number(random, banks);
    }
    Chain { slaves, banks, rights, waits, registers }
}

fn chain(random: &mut Random) -> Chain {
    let slaves = if random.one_in(3) { random.below(4) } else { random.between(0, 16) };
    chain_of(random, slaves)
}

/// How many banks each slave has: often all one, often all the same.
fn banks(random: &mut Random, slaves: usize) -> Vec<u8> {
    let same = random.between(1, 8) as u8;
    match random.below(8) {
        0 | 1 => vec![1; slaves],
        2 => vec![same; slaves],
        _ => (0..slaves).map(|_| random.between(1, 8) as u8).collect(),
    }
}

/// Where the bank registers of these slaves stand, and the banks of each.
pub fn bank_registers(banks: &[u8]) -> impl Iterator<Item = (usize, u8)> + '_ {
    let mut end = 0;
    banks.iter().map(move |&banks| {
        end += registers_of(banks);
        (end - BANK_BYTES, banks)
    })
}

/// What a bank register of so many banks holds: mostly the number of one of them.
pub fn bank_number(random: &mut Random, banks: u8) -> u8 {
    let held = random.below(banks.into()) as u8;
    let any = random.next() as u8;
    let other = random.pick(&[banks, banks, 8, held | 0x80, 255, any]);
    random.pick(&[held, held, held, other])
}

/// A usual right for all, or one for each bank, and others among them; the bank register
/// is mostly open.
fn rights(random: &mut Random, banks: &[u8]) -> Vec<u8> {
    let usual = [3, 3, 3, 2, 1, 0];
    let (all, is_of_each) = (random.pick(&usual), random.one_in(4));
    let one_in = random.pick(&[1, 4, 16, 64, usize::MAX]);
    let blocks: usize = banks.iter().map(|&banks| usize::from(banks) + 1).sum();
    let mut rights = Vec::with_capacity(BANK_BYTES * blocks);
    for _ in 0..blocks {
        let right = if is_of_each { random.pick(&usual) } else { all };
        rights.resize(rights.len() + BANK_BYTES, right);
    }
    for right in &mut rights {
        if random.one_in(one_in) {
            *right = random.below(4) as u8;
        }
    }
    for (place, _) in bank_registers(banks) {
        rights[place] = random.pick(&[3, 3, 3, 3, 2, 1, 0, rights[place]]);
    }
    rights
}

/// The waiting numbers of slaves: often all 0, often all the same.
fn waits(random: &mut Random, slaves: usize) -> Vec<u8> {
    let same = wait(random);
    match random.below(8) {
        0..=2 => vec![0; slaves],
        3 => vec![same; slaves],
        _ => (0..slaves).map(|_| wait(random)).collect(),
    }
}

fn wait(random: &mut Random) -> u8 {
    let few = random.between(2, 20) as u8;
    let any = random.next() as u8;
    random.pick(&[0, 0, 0, 1, 1, 1, 2, 3, 3, 3, few, few, 255, any])
}

/// A chain and a master row within all limits.
pub fn chain_and_row(random: &mut Random) -> (Chain, MasterRow) {
    let mut chain = chain(random);
    if !random.one_in(9) {
        let row = master_row(random, &chain);
        return (chain, row);
    }
    if !random.one_in(8) {
        chain.rights.fill(3);
    }
    if let Some((place, banks)) = bank_registers(&chain.banks).next() {
        chain.registers[place] = random.below(banks.into()) as u8;
    }
    // With more than 49 repeats 64 bytes would pass 4,096 columns.
    let wait = random.pick(&[0, 0, 0, 0, 0, 0, 0, 1, 2, 3, 3, 49]);
    chain.waits.iter_mut().take(1).for_each(|far| *far = wait);
    let row = long_access(random, wait, chain.banks_of(0));
    (chain, row)
}
