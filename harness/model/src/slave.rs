//! A slave, stepped column by column.

use super::check::{check_bits, check_is_right, BYTE_BITS, HEADER_BITS};
use super::frame::{
    ADDRESSES, BANK_BYTES, BANK_REGISTER, BYTE_AND_CHECK, CODES, EX_ADDRESSED, EX_BROADCAST,
    FIRST_ACKNOWLEDGE, FIRST_LOCK, LAST_HEADER, MOST_BYTES,
};
use super::phase::{of_access, of_byte_start, of_command, of_header, Phase};
use super::rows::Zeros;

/// "One right for each: 0 none, 1 read, 2 write, 3 both."
pub fn allows(right: u8, writing: bool) -> bool {
    right & (if writing { 2 } else { 1 }) != 0
}

/// An accepted access at its present byte.
#[derive(Clone, Copy)]
struct Access {
    writing: bool,
    address: u8,
    /// Where the register stands that the address shows.
    place: usize,
    /// Bytes passed before the present one.
    passed: u8,
}

/// A command that is for this slave.
#[derive(Clone, Copy)]
struct Command {
    code: u8,
    is_broadcast: bool,
}

impl Command {
    /// The column of EX, counted from the command's S.
    fn ex(self) -> u8 {
        if self.is_broadcast {
            EX_BROADCAST
        } else {
            EX_ADDRESSED
        }
    }
}

/// What a slave awaits in the next column.
#[derive(Clone, Copy)]
enum Awaits {
    /// Nothing but fourteen zeros: deaf, or not yet at rest after power-on.
    Rest,
    Start,
    /// Columns after S already seen, and their bits.
    Header {
        seen: u8,
        bits: u16,
    },
    /// A column of a command, counted from its S.
    Command {
        command: Command,
        column: u8,
    },
    R {
        address: u8,
    },
    W {
        address: u8,
        r: u8,
    },
    /// How often S = 1 was answered 0 at this byte.
    ByteStart {
        access: Access,
        waited: u8,
    },
    /// Data and check bits already passed; reading, `bits` are those to send.
    Byte {
        access: Access,
        done: u8,
        bits: u16,
    },
    P {
        access: Access,
        stored_or_read: bool,
    },
}

/// A slave; its registers are its banks in their order, then the fixed ones.
pub struct Slave<'a> {
    banks: usize,
    rights: &'a [u8],
    /// The waiting number.
    wait: u8,
    registers: &'a mut [u8],
    /// How often each code was executed.
    pub executed: [u32; CODES],
    zeros: Zeros,
    number: Option<u8>,
    awaits: Awaits,
}

impl<'a> Slave<'a> {
    pub fn at_power_on(
        banks: u8,
        rights: &'a [u8],
        wait: u8,
        registers: &'a mut [u8],
    ) -> Slave<'a> {
        let (banks, zeros, executed) = (usize::from(banks), Zeros::none_yet(), [0; CODES]);
        Slave {
            banks,
            rights,
            wait,
            registers,
            executed,
            zeros,
            number: None,
            awaits: Awaits::Rest,
        }
    }

    pub fn phase(&self) -> Phase {
        match self.awaits {
            Awaits::Rest => Phase::Deaf,
            Awaits::Start => Phase::Rest,
            Awaits::Header { seen, .. } => of_header(seen + 1),
            Awaits::Command { command, column } => of_command(column, command.ex()),
            Awaits::R { .. } => Phase::R,
            Awaits::W { .. } => Phase::W,
            Awaits::ByteStart { access: a, waited } => of_byte_start(a.writing, waited > 0),
            Awaits::Byte { access: a, .. } => {
                of_access(a.writing, Phase::ReadBits, Phase::WriteBits)
            }
            Awaits::P { access: a, .. } => of_access(a.writing, Phase::ReadP, Phase::WriteP),
        }
    }

    /// Takes a column's CDM bit and the bit from the far side; gives the bit
    /// for the master's side.
    #[inline]
    pub fn step(&mut self, cdm: u8, seen: u8) -> u8 {
        if self.zeros.rest_after(cdm) {
            self.awaits = Awaits::Start;
            return 0;
        }
        match self.awaits {
            Awaits::Rest => seen,
            Awaits::Start => self.start(cdm, seen),
            Awaits::Header { seen: before, bits } => {
                self.header(before + 1, bits << 1 | u16::from(cdm), seen)
            }
            Awaits::Command { command, column } => self.command(command, column, cdm, seen),
            Awaits::R { address } => {
                self.awaits = Awaits::W { address, r: cdm };
                cdm
            }
            Awaits::W { address, r } => self.w(address, r, cdm),
            Awaits::ByteStart { access, waited } => self.byte_start(access, waited, cdm),
            Awaits::Byte { access, done, bits } => self.byte(access, done, bits, cdm),
            Awaits::P { access, stored_or_read } => self.p(access, stored_or_read),
        }
    }

    fn start(&mut self, cdm: u8, seen: u8) -> u8 {
        if cdm == 1 {
            self.number = None;
            self.awaits = Awaits::Header { seen: 0, bits: 0 };
        }
        seen
    }

    /// `column` counts from 1 after S; `bits` includes this column's.
    fn header(&mut self, column: u8, bits: u16, seen: u8) -> u8 {
        self.awaits = if column < LAST_HEADER {
            Awaits::Header { seen: column, bits }
        } else {
            self.after_header(bits)
        };
        self.lock(column, seen)
    }

    fn lock(&mut self, column: u8, seen: u8) -> u8 {
        let is_lock = (FIRST_LOCK..=FIRST_LOCK + 8).contains(&column);
        if !is_lock || self.number.is_some() {
            return seen;
        }
        let lock = column - FIRST_LOCK;
        if lock == 8 {
            return 1;
        }
        if seen == 0 {
            self.number = Some(lock);
            return 1;
        }
        seen
    }

    fn after_header(&self, bits: u16) -> Awaits {
        let is_register_access = bits >> 14 == 1;
        let id = (bits >> 11 & 7) as u8;
        let address = (bits >> 4 & 127) as u8;
        if !check_is_right(bits, HEADER_BITS) {
            return Awaits::Rest;
        }
        if !is_register_access {
            return self.after_command_header((bits >> 6) as u8, (bits >> 4 & 3) as u8);
        }
        if self.number != Some(id) {
            return Awaits::Rest;
        }
        Awaits::R { address }
    }

    /// "Each IDS bit represents one" ID, "starting with 0": the highest bit. Whoever is
    /// not named passes bits on, and so is deaf; a broadcast is for all.
    fn after_command_header(&self, ids: u8, code: u8) -> Awaits {
        let is_broadcast = ids == 0;
        let is_named = self.number.is_some_and(|id| ids << id & 0x80 != 0);
        if !is_broadcast && !is_named {
            return Awaits::Rest;
        }
        Awaits::Command { command: Command { code, is_broadcast }, column: 0 }
    }

    /// A named slave sends 1 in its own IDA column. The master's bits between S and EX are
    /// not judged.
    fn command(&mut self, command: Command, column: u8, cdm: u8, seen: u8) -> u8 {
        let (is_start, is_ex) = (column == 0, column == command.ex());
        if is_ex && cdm == 1 {
            self.executed[usize::from(command.code)] += 1;
        }
        if is_ex || is_start && cdm == 0 {
            self.awaits = Awaits::Rest;
            return seen;
        }
        self.awaits = Awaits::Command { command, column: column + 1 };
        let own = self.number.map(|id| FIRST_ACKNOWLEDGE + id);
        if !command.is_broadcast && own == Some(column) {
            return 1;
        }
        seen
    }

    /// The place of the register that an address shows; none where "the register names
    /// no held bank", and at the bank register of a slave with one bank (000).
    fn shown(&self, address: u8) -> Option<usize> {
        let fixed = BANK_BYTES * self.banks;
        if address < BANK_REGISTER {
            let chosen = usize::from(self.registers[fixed]);
            return (chosen < self.banks).then_some(BANK_BYTES * chosen + usize::from(address));
        }
        let is_refused = address == BANK_REGISTER && self.banks == 1;
        (!is_refused).then_some(fixed + usize::from(address - BANK_REGISTER))
    }

    /// The place of the register at this address, if it is there and its right allows
    /// the access.
    fn allowed(&self, address: u8, writing: bool) -> Option<usize> {
        if usize::from(address) >= ADDRESSES {
            return None;
        }
        self.shown(address).filter(|&place| allows(self.rights[place], writing))
    }

    fn w(&mut self, address: u8, r: u8, w: u8) -> u8 {
        let writing = w == 1;
        let allowed = self.allowed(address, writing).filter(|_| r != w);
        let Some(place) = allowed else {
            self.awaits = Awaits::Rest;
            return 1 - w;
        };
        let access = Access { writing, address, place, passed: 0 };
        self.awaits = Awaits::ByteStart { access, waited: 0 };
        w
    }

    /// "Every byte of a read waits; in a write the first byte does not, later ones do."
    fn wait_at(&self, access: Access) -> u8 {
        if access.writing && access.passed == 0 {
            return 0;
        }
        self.wait
    }

    /// "With S = 1 it answers 0 that many times and then 1."
    fn byte_start(&mut self, access: Access, waited: u8, cdm: u8) -> u8 {
        if cdm == 0 {
            self.awaits = Awaits::Rest;
            return 0;
        }
        if waited < self.wait_at(access) {
            self.awaits = Awaits::ByteStart { access, waited: waited + 1 };
            return 0;
        }
        let held = u16::from(self.registers[access.place]);
        let to_send = held << 4 | u16::from(check_bits(held, BYTE_BITS));
        let bits = if access.writing { 0 } else { to_send };
        self.awaits = Awaits::Byte { access, done: 0, bits };
        1
    }

    fn byte(&mut self, access: Access, done: u8, bits: u16, cdm: u8) -> u8 {
        if access.writing {
            self.byte_to_write(access, done + 1, bits << 1 | u16::from(cdm));
            return cdm;
        }
        let done = done + 1;
        self.awaits = if done < BYTE_AND_CHECK {
            Awaits::Byte { access, done, bits }
        } else {
            Awaits::P { access, stored_or_read: true }
        };
        (bits >> (BYTE_AND_CHECK - done) & 1) as u8
    }

    /// `done` counts this column, `bits` includes its bit.
    fn byte_to_write(&mut self, access: Access, done: u8, bits: u16) {
        if done < BYTE_AND_CHECK {
            self.awaits = Awaits::Byte { access, done, bits };
            return;
        }
        let right = check_is_right(bits, BYTE_BITS);
        if right {
            self.registers[access.place] = (bits >> 4) as u8;
        }
        self.awaits = Awaits::P { access, stored_or_read: right };
    }

    fn p(&mut self, access: Access, stored_or_read: bool) -> u8 {
        let passed = access.passed + 1;
        let next = access.address + 1;
        let allowed = self.allowed(next, access.writing);
        let Some(place) = allowed.filter(|_| stored_or_read && passed < MOST_BYTES) else {
            self.awaits = Awaits::Rest;
            return 1;
        };
        let access = Access { address: next, place, passed, ..access };
        self.awaits = Awaits::ByteStart { access, waited: 0 };
        0
    }
}
