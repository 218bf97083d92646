//! The chain's account: "worked out from the slaves and the master row, not
//! the answers". It cuts the row at its rests and takes each frame as a whole,
//! so that it shares no stepping with slave.rs and reader.rs. The banks it names in its
//! finished list, ID by ID.

use super::check::{check_bits, BYTE_BITS, HEADER_BITS};
use super::entry::{names_bank, Entry, Kind, NO_BANK_YET};
use super::frame::{BANK_BYTES, BANK_REGISTER, CODES, FIRST_LOCK};
use super::rows::ZEROS_TO_REST;
use super::slave::allows;

pub struct Account<'a> {
    banks: &'a [u8],
    rights: &'a [u8],
    waits: &'a [u8],
    pub registers: Vec<u8>,
    /// How often each slave executed each code, far slave first.
    pub executed: Vec<u32>,
    pub entries: Vec<Entry>,
}

/// The account of a whole row; the arguments must be ones `run` does not refuse.
pub fn account<'a>(
    banks: &'a [u8],
    rights: &'a [u8],
    waits: &'a [u8],
    registers: &[u8],
    cdm: &[u8],
) -> Account<'a> {
    let (registers, entries) = (registers.to_vec(), Vec::new());
    let executed = vec![0; CODES * banks.len()];
    let mut account = Account { banks, rights, waits, registers, executed, entries };
    let mut rest = rest_after(cdm, 0);
    while let Some(start) = rest.and_then(|rest| first_one(cdm, rest)) {
        rest = rest_after(cdm, start);
        let stop = rest.unwrap_or(cdm.len());
        account.frame(start, &cdm[start..stop]);
        if let Some(column) = rest {
            account.note(start, column - start, Entry::of(Kind::End));
        }
    }
    (0..8).for_each(|id| account.name_banks(id));
    account
}

/// The column of the first fourteenth zero, counting zeros from column `from`.
pub fn rest_after(cdm: &[u8], from: usize) -> Option<usize> {
    let mut runs = cdm[from..].windows(ZEROS_TO_REST);
    runs.position(|run| run.iter().all(|&bit| bit == 0))
        .map(|first| from + first + ZEROS_TO_REST - 1)
}

fn first_one(cdm: &[u8], from: usize) -> Option<usize> {
    cdm[from..].iter().position(|&bit| bit == 1).map(|ahead| from + ahead)
}

/// How many ones stand there before the first 0, or the end.
fn ones(bits: &[u8]) -> usize {
    bits.iter().take_while(|&&bit| bit == 1).count()
}

/// Bits as a number, highest first.
fn number(bits: &[u8]) -> u16 {
    bits.iter().fold(0, |word, &bit| word << 1 | u16::from(bit))
}

impl Account<'_> {
    /// Notes an entry so many columns after its frame's S.
    fn note(&mut self, start: usize, after: usize, entry: Entry) {
        self.entries.push(entry.at(start + after).start(start));
    }

    /// `frame` is the columns from S on that lie before a fourteenth zero.
    fn frame(&mut self, start: usize, frame: &[u8]) {
        let idl8 = usize::from(FIRST_LOCK) + 8;
        if frame.len() <= idl8 {
            return;
        }
        let locks = self.banks.len().min(9) as u8;
        self.note(start, idl8, Entry::of(Kind::Lock).value(locks));
        if frame.len() <= 15 {
            return;
        }
        let word = number(&frame[1..12]);
        if number(&frame[12..16]) != u16::from(check_bits(word, HEADER_BITS)) {
            self.note(start, 15, Entry::of(Kind::BadHead));
        } else if frame[1] == 0 {
            self.command(start, frame);
        } else if frame.len() > 17 {
            self.register_access(start, frame);
        }
    }

    /// A command is its header, its S, of an addressed one seven columns that are the
    /// slaves' alone, and EX.
    fn command(&mut self, start: usize, frame: &[u8]) {
        let (ids, cmd) = (&frame[2..10], number(&frame[10..12]) as u8);
        let entry = |kind| Entry::of(kind).place(cmd, 0).value(number(ids) as u8);
        self.note(start, 15, entry(Kind::Command));
        let is_addressed = ids.contains(&1);
        let ex = if is_addressed { 24 } else { 17 };
        if frame.len() <= ex || frame[16] == 0 {
            return;
        }
        self.note(start, ex, entry([Kind::Withheld, Kind::Executed][usize::from(frame[ex])]));
        // "IDS starting with ID 0", and the slaves in the order of their IDs.
        for (place, counts) in self.executed.chunks_exact_mut(CODES).enumerate() {
            if !is_addressed || ids.get(place) == Some(&1) {
                counts[usize::from(cmd)] += u32::from(frame[ex]);
            }
        }
    }

    fn register_access(&mut self, start: usize, frame: &[u8]) {
        let id = number(&frame[2..5]) as u8;
        let address = number(&frame[5..12]) as u8;
        let (r, w) = (frame[16], frame[17]);
        let kind = if r == w {
            Kind::Pair
        } else if usize::from(id) >= self.banks.len() {
            Kind::Absent
        } else if !self.is_allowed(id, address, w == 1) {
            Kind::Refused
        } else {
            return self.bytes(start, frame, id, address, w == 1);
        };
        let value = if kind == Kind::Refused { w } else { 0 };
        self.note(start, 17, Entry::of(kind).place(id, address).value(value));
    }

    /// A byte has the ones that its slave waits for, and then fourteen columns from the
    /// S that is confirmed on; fewer ones are a master that gives up.
    fn bytes(&mut self, start: usize, frame: &[u8], id: u8, address: u8, writing: bool) {
        let mut after = 18;
        for n in 0..64 {
            let address = address + n;
            let wait = if writing && n == 0 { 0 } else { usize::from(self.waits[usize::from(id)]) };
            let ones = ones(&frame[after..]);
            if 0 < ones && ones <= wait && after + ones < frame.len() {
                self.note(start, after + ones, Entry::of(Kind::Mute).place(id, address));
            }
            after += wait;
            if ones <= wait || frame.len() <= after + 12 {
                return;
            }
            let byte = &frame[after..];
            let kind = if writing { self.write(id, address, byte) } else { Kind::Read };
            let value = if writing { number(&byte[1..9]) as u8 } else { self.held(id, address) };
            self.note(start, after + 12, Entry::of(kind).place(id, address).value(value));
            if byte.len() <= 13 {
                return;
            }
            let next_is_good = address < 127 && self.is_allowed(id, address + 1, writing);
            if n + 1 == 64 || !next_is_good || kind == Kind::WriteBad {
                self.note(start, after + 13, Entry::of(Kind::Closed).place(id, address));
                return;
            }
            after += 14;
        }
    }

    fn write(&mut self, id: u8, address: u8, byte: &[u8]) -> Kind {
        let data = number(&byte[1..9]);
        if number(&byte[9..13]) != u16::from(check_bits(data, BYTE_BITS)) {
            return Kind::WriteBad;
        }
        let place = self.place(id, address).expect("a write goes on where it is allowed");
        self.registers[place] = data as u8;
        Kind::Written
    }

    fn held(&self, id: u8, address: u8) -> u8 {
        let place = self.place(id, address).expect("a read goes on where it is allowed");
        self.registers[place]
    }

    fn is_allowed(&self, id: u8, address: u8, writing: bool) -> bool {
        self.place(id, address).is_some_and(|place| allows(self.rights[place], writing))
    }

    fn place(&self, id: u8, address: u8) -> Option<usize> {
        place(self.banks, &self.registers, id, address)
    }

    /// Gives the entries of an ID their bank: "the value of that ID's last earlier
    /// `written` at the bank register, 255 if none".
    fn name_banks(&mut self, id: u8) {
        let mut bank = NO_BANK_YET;
        for entry in self.entries.iter_mut().filter(|entry| entry.id == id) {
            if names_bank(entry.kind as u8, entry.address) {
                entry.bank = bank;
            }
            if entry.kind == Kind::Written && entry.address == BANK_REGISTER {
                bank = entry.value;
            }
        }
    }
}

/// Where in the buffers the register stands that an ID's address shows, if it shows one:
/// "the far slave is ID 0", and "chain order in the buffers is far slave first". They
/// are blocks of 64 bytes: of each slave its banks and the fixed registers.
pub fn place(banks: &[u8], registers: &[u8], id: u8, address: u8) -> Option<usize> {
    let (farther, own) = (&banks[..usize::from(id)], usize::from(banks[usize::from(id)]));
    let first: usize = farther.iter().map(|&banks| usize::from(banks) + 1).sum();
    let (fixed, within) = (first + own, usize::from(address) % BANK_BYTES);
    let block = if usize::from(address) >= BANK_BYTES {
        Some(fixed).filter(|_| own > 1 || within > 0)
    } else {
        let chosen = usize::from(registers[BANK_BYTES * fixed]);
        (first..fixed).nth(chosen)
    };
    block.map(|block| BANK_BYTES * block + within)
}
