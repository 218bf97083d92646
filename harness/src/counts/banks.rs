//! Banks: how many slaves have, what became of accesses behind a bank register and at
//! it, and which banks lists name.

use super::{Count, Counts};
use crate::generate::chains::bank_registers;
use model::entry::{names_bank, Entry, Kind, FORMS, NO_BANK_YET};
use model::frame::{BANK_BYTES, BANK_REGISTER};
use model::slave::allows;
use std::ops::RangeInclusive;

pub const BANKS: RangeInclusive<u8> = 1..=8;

/// What an access of an honest row met: at the addresses 0 to 63, at the bank register,
/// and on the way over the border between them and behind it.
#[derive(Clone, Copy, PartialEq, Eq, PartialOrd, Ord, Debug)]
pub enum Situation {
    /// The bank register names no bank that its slave holds, from the start on or
    /// since one was chosen.
    UnheldFromStart,
    UnheldSinceChosen,
    /// A byte in a bank that was chosen in the row; where another ID has chosen another.
    InChosen,
    OthersChoseOthers,
    /// Refused in a bank by its right there.
    RightInBank,
    /// The bank register: of a slave of one bank, against its right, with the number of
    /// a bank and with another one, and written with a wrong check.
    AtRegisterOfOneBank,
    RightAtRegister,
    HeldAtRegister,
    UnheldAtRegister,
    BadAtRegister,
    /// The sequence ends behind 63 as its slave has one bank, or by the right at 64, or
    /// it goes on there.
    OneBankAtBorder,
    RightAtBorder,
    OverBorder,
    /// It goes on at 65, begun at 64 or before.
    BehindFromRegister,
    BehindFromBefore,
}

use Situation::*;

const BOTH: &[bool] = &[false, true];

/// The situations, and whether a read, a write or both can meet them.
pub const SITUATIONS: [(Situation, &[bool]); 15] = [
    (UnheldFromStart, BOTH),
    (UnheldSinceChosen, BOTH),
    (InChosen, BOTH),
    (OthersChoseOthers, BOTH),
    (RightInBank, BOTH),
    (AtRegisterOfOneBank, BOTH),
    (RightAtRegister, BOTH),
    (HeldAtRegister, BOTH),
    (UnheldAtRegister, BOTH),
    (BadAtRegister, &[true]),
    (OneBankAtBorder, BOTH),
    (RightAtBorder, BOTH),
    (OverBorder, BOTH),
    (BehindFromRegister, BOTH),
    (BehindFromBefore, BOTH),
];

/// What an entry has for a bank.
#[derive(Clone, Copy, PartialEq, Eq, PartialOrd, Ord, Debug)]
pub enum Named {
    Known,
    NotYet,
    None,
}

pub const NAMED: [Named; 3] = [Named::Known, Named::NotYet, Named::None];

/// Kinds with a value that say nothing of the bank, at a bank register.
pub const PASSED_OVER: [Kind; 5] =
    [Kind::Refused, Kind::Read, Kind::ReadBad, Kind::WriteBad, Kind::Echo];

/// The bank of an entry of a list that was opened late: as in the whole list, from a
/// write that both have; 255 where the whole list has one before the opening; 255 in both.
#[derive(Clone, Copy, PartialEq, Eq, PartialOrd, Ord, Debug)]
pub enum Late {
    Agrees,
    Unknown,
    Never,
}

pub const LATE: [Late; 3] = [Late::Agrees, Late::Unknown, Late::Never];

fn is_choice(entry: &Entry) -> bool {
    entry.kind == Kind::Written && entry.address == BANK_REGISTER
}

fn is_byte(entry: &Entry) -> bool {
    [Kind::Read, Kind::Written].contains(&entry.kind)
}

/// The slaves of an honest row as its account goes on.
struct Chain<'a> {
    banks: &'a [u8],
    /// The rights at the bank registers.
    rights: Vec<u8>,
    /// What the bank registers hold, and what was written to them.
    held: Vec<u8>,
    chosen: Vec<Option<u8>>,
    is_accessed: Vec<bool>,
}

impl Chain<'_> {
    fn new<'a>(banks: &'a [u8], rights: &[u8], registers: &[u8]) -> Chain<'a> {
        let at = |buffer: &[u8]| bank_registers(banks).map(|(place, _)| buffer[place]).collect();
        let (rights, held) = (at(rights), at(registers));
        let (chosen, is_accessed) = (vec![None; banks.len()], vec![false; banks.len()]);
        Chain { banks, rights, held, chosen, is_accessed }
    }

    fn has(&self, id: usize, bank: u8) -> bool {
        bank < self.banks[id]
    }

    /// Follows an entry.
    fn follow(&mut self, entry: &Entry) {
        let id = usize::from(entry.id);
        self.is_accessed[id] |= usize::from(entry.address) < BANK_BYTES;
        if is_choice(entry) {
            self.held[id] = entry.value;
            self.chosen[id] = Some(entry.value);
        }
    }

    /// What an entry at 0 to 63 has met.
    fn below(&self, entry: &Entry) -> Option<Situation> {
        let id = usize::from(entry.id);
        match entry.kind {
            Kind::Refused if self.has(id, self.held[id]) => Some(RightInBank),
            Kind::Refused if self.chosen[id].is_none() => Some(UnheldFromStart),
            Kind::Refused => Some(UnheldSinceChosen),
            Kind::Read | Kind::Written if self.chosen[id].is_some() => Some(InChosen),
            _ => None,
        }
    }

    /// What an entry at the bank register has met.
    fn at_register(&self, entry: &Entry) -> Option<Situation> {
        let id = usize::from(entry.id);
        match entry.kind {
            Kind::Refused if self.banks[id] == 1 => Some(AtRegisterOfOneBank),
            Kind::Refused => Some(RightAtRegister),
            Kind::Read | Kind::Written if self.has(id, entry.value) => Some(HeldAtRegister),
            Kind::Read | Kind::Written => Some(UnheldAtRegister),
            Kind::WriteBad => Some(BadAtRegister),
            _ => None,
        }
    }

    /// What a sequence has met on its way from 62 to 65, by its last two entries.
    fn at_border(&self, before: &Entry, entry: &Entry, writing: bool) -> Option<Situation> {
        let id = usize::from(entry.id);
        if before.start != entry.start || !is_byte(before) {
            return None;
        }
        match (before.address, entry.kind) {
            (63, Kind::Closed) if self.banks[id] == 1 => Some(OneBankAtBorder),
            (63, Kind::Closed) if !allows(self.rights[id], writing) => Some(RightAtBorder),
            (63, Kind::Read | Kind::Written) => Some(OverBorder),
            _ => None,
        }
    }

    /// Whether another ID has chosen another bank.
    fn others_chose_others(&self, entry: &Entry) -> bool {
        let own = self.chosen[usize::from(entry.id)];
        own.is_some() && self.chosen.iter().any(|other| other.is_some() && *other != own)
    }
}

impl Counts {
    /// Counts what the slaves of an honest row have met, by its account.
    pub fn add_banks(&mut self, banks: &[u8], rights: &[u8], registers: &[u8], account: &[Entry]) {
        for pair in banks.windows(2) {
            self.add_one(Count::Neighbours(pair[0], pair[1]));
        }
        let mut chain = Chain::new(banks, rights, registers);
        let is_of_slave = |entry: &&Entry| {
            let names_address = FORMS[entry.kind as usize - 1].address;
            names_address && ![Kind::Pair, Kind::Absent].contains(&entry.kind)
        };
        let entries: Vec<Entry> = account.iter().filter(is_of_slave).copied().collect();
        for nth in 0..entries.len() {
            self.add_accesses(&chain, &entries[..=nth]);
            chain.follow(&entries[nth]);
        }
    }

    /// Counts the last of these entries.
    fn add_accesses(&mut self, chain: &Chain, entries: &[Entry]) {
        let (entry, before) = entries.split_last().expect("one entry at least");
        let id = usize::from(entry.id);
        let (banks, bank) = (chain.banks[id], chain.held[id]);
        let writing = is_writing(before.last().filter(|before| before.start == entry.start), entry);
        let mut met = Vec::new();
        if entry.address < BANK_REGISTER {
            if !chain.is_accessed[id] && chain.chosen[id].is_none() {
                self.add_one(Count::StartsAt(banks, chain.has(id, bank)));
            }
            if is_byte(entry) {
                self.add_one(Count::InBank(writing, banks, bank));
                met.extend(chain.others_chose_others(entry).then_some(OthersChoseOthers));
            }
            met.extend(chain.below(entry));
        }
        if entry.address == BANK_REGISTER {
            met.extend(chain.at_register(entry));
        }
        if let Some(last) = before.last() {
            met.extend(chain.at_border(last, entry, writing));
            met.extend(behind(before, entry));
        }
        met.into_iter().for_each(|met| self.add_one(Count::AtBanks(met, writing)));
    }

    /// Counts the banks that a list names.
    pub fn add_named(&mut self, list: &[Entry]) {
        let mut passed_over = [None; 8];
        for entry in list {
            let id = usize::from(entry.id);
            self.add_one(Count::Named(entry.kind as u8, named(entry)));
            if let Some(kind) = passed_over[id].filter(|_| has_bank(entry)) {
                self.add_one(Count::PassedOver(kind));
            }
            if entry.address == BANK_REGISTER && PASSED_OVER.contains(&entry.kind) {
                passed_over[id] = Some(entry.kind as u8);
            }
            if is_choice(entry) {
                passed_over[id] = None;
            }
        }
    }

    /// Counts the banks of a list that was opened late, against those of the whole list.
    pub fn add_late(&mut self, late: &[Entry], whole: &[Entry]) {
        let same = &whole[whole.len() - late.len()..];
        for (late, whole) in late.iter().zip(same).filter(|(late, _)| has_bank(late)) {
            let bank = match (late.bank, whole.bank) {
                (NO_BANK_YET, NO_BANK_YET) => Late::Never,
                (NO_BANK_YET, _) => Late::Unknown,
                _ => Late::Agrees,
            };
            self.add_one(Count::Late(bank));
        }
    }
}

/// Whether an entry is of a write, behind another one of its frame or not.
fn is_writing(before: Option<&Entry>, entry: &Entry) -> bool {
    match entry.kind {
        Kind::Refused => entry.value == 1,
        Kind::Closed | Kind::Mute => before.is_some_and(|before| is_writing(None, before)),
        _ => [Kind::Written, Kind::WriteBad].contains(&entry.kind),
    }
}

/// A byte at 65 behind one at 64, in a frame that began at 64 or before.
fn behind(before: &[Entry], entry: &Entry) -> Option<Situation> {
    let is_of_frame = |place: usize, address: u8| {
        let byte = before.len().checked_sub(place).map(|at| &before[at]);
        byte.is_some_and(|byte| byte.start == entry.start && byte.address == address)
    };
    if !is_byte(entry) || entry.address != BANK_REGISTER + 1 || !is_of_frame(1, BANK_REGISTER) {
        return None;
    }
    Some(if is_of_frame(2, BANK_REGISTER - 1) { BehindFromBefore } else { BehindFromRegister })
}

fn has_bank(entry: &Entry) -> bool {
    names_bank(entry.kind as u8, entry.address)
}

fn named(entry: &Entry) -> Named {
    match entry.bank {
        _ if !has_bank(entry) => Named::None,
        NO_BANK_YET => Named::NotYet,
        _ => Named::Known,
    }
}

/// What a kind can have for a bank.
fn can_have(kind: u8) -> &'static [Named] {
    let names_address = FORMS[usize::from(kind) - 1].address;
    if names_address {
        &NAMED
    } else {
        &[Named::None]
    }
}

pub fn expected() -> Vec<Count> {
    let mut all = Vec::new();
    for banks in BANKS {
        all.extend(BANKS.map(|next| Count::Neighbours(banks, next)));
        all.extend(BOTH.iter().map(|&is_held| Count::StartsAt(banks, is_held)));
        let in_bank = |bank| BOTH.iter().map(move |&writing| Count::InBank(writing, banks, bank));
        all.extend((0..banks).flat_map(in_bank));
    }
    for (met, by) in SITUATIONS {
        all.extend(by.iter().map(|&writing| Count::AtBanks(met, writing)));
    }
    for kind in super::kinds() {
        all.extend(can_have(kind).iter().map(|&named| Count::Named(kind, named)));
    }
    all.extend(PASSED_OVER.map(|kind| Count::PassedOver(kind as u8)));
    all.extend(LATE.map(Count::Late));
    all
}
