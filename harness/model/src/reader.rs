//! The reader: two recorded bits a column, at most one entry.

use super::check::{check_is_right, BYTE_BITS, HEADER_BITS};
use super::entry::{names_bank, Entry, Kind, NO_BANK_YET};
use super::frame::{BANK_REGISTER, BYTE_AND_CHECK, FIRST_LOCK, LAST_HEADER, MOST_BYTES};
use super::phase::{of_access, of_byte_start, of_header, Phase};
use super::rows::Zeros;

const LAST_ADDRESS: u8 = 127;

/// A register access at the byte that is under way.
#[derive(Clone, Copy)]
struct Access {
    id: u8,
    address: u8,
    writing: bool,
    /// Bytes begun, the present one included.
    nth: u8,
}

/// A command, from its header on.
#[derive(Clone, Copy)]
struct Command {
    cmd: u8,
    ids: u8,
}

impl Command {
    /// An entry of it that has its IDS, or its answers, for a value.
    fn entry(self, kind: Kind, value: u8) -> Entry {
        Entry::of(kind).place(self.cmd, 0).value(value)
    }
}

/// What the reader awaits in the next column.
#[derive(Clone, Copy)]
enum Awaits {
    /// Deaf, or not yet at rest.
    Rest,
    Start,
    Header {
        column: u8,
        bits: u16,
        locks: u16,
    },
    CommandStart(Command),
    /// The answers up to now, IDA0 first, and how many they are.
    Acknowledge {
        command: Command,
        answered: u8,
        answers: u8,
    },
    /// Whether the answers did not fit.
    Ex {
        command: Command,
        is_odd: bool,
    },
    R {
        id: u8,
        address: u8,
    },
    W {
        id: u8,
        address: u8,
        r: u8,
        answered_r: u8,
    },
    /// Whether a 1 at this byte's S was answered 0.
    ByteStart {
        access: Access,
        unconfirmed: bool,
    },
    Byte {
        access: Access,
        done: u8,
        cdm: u16,
        cds: u16,
    },
    P(Access),
}

pub struct Reader {
    zeros: Zeros,
    frame_begun: bool,
    /// The column of S of the present frame, or of the last one.
    start: usize,
    /// The lock value of the present frame.
    lock: u8,
    /// Of each ID what was last written to its bank register.
    banks: [u8; 8],
    awaits: Awaits,
}

impl Reader {
    pub fn let_in() -> Reader {
        let (zeros, banks) = (Zeros::none_yet(), [NO_BANK_YET; 8]);
        Reader { zeros, frame_begun: false, start: 0, lock: 0, banks, awaits: Awaits::Rest }
    }

    /// Takes a column, counted from the start of the row, and its two bits.
    #[inline]
    pub fn step(&mut self, column: usize, cdm: u8, cds: u8) -> Option<Entry> {
        let event = self.event(column, cdm, cds)?;
        let bank = self.bank(event);
        Some(event.at(column).start(self.start).bank(bank))
    }

    /// The bank that an entry names, or 0; what it writes to a bank register counts from
    /// the next entry on.
    fn bank(&mut self, event: Entry) -> u8 {
        if event.kind == Kind::Written && event.address == BANK_REGISTER {
            self.banks[usize::from(event.id)] = event.value;
        }
        if names_bank(event.kind as u8, event.address) {
            return self.banks[usize::from(event.id)];
        }
        0
    }

    #[inline]
    fn event(&mut self, column: usize, cdm: u8, cds: u8) -> Option<Entry> {
        if self.zeros.rest_after(cdm) {
            self.awaits = Awaits::Start;
            let ends = self.frame_begun;
            self.frame_begun = false;
            return ends.then_some(Entry::of(Kind::End));
        }
        match self.awaits {
            Awaits::Rest => None,
            Awaits::Start => self.begin(column, cdm),
            Awaits::Header { column, bits, locks } => {
                self.header(column, bits << 1 | u16::from(cdm), locks << 1 | u16::from(cds))
            }
            Awaits::CommandStart(command) => self.command_start(command, cdm, cds),
            Awaits::Acknowledge { command, answered, answers } => {
                self.acknowledge(command, answered + 1, answers << 1 | cds)
            }
            Awaits::Ex { command, is_odd } => self.ex(command, is_odd, cdm),
            Awaits::R { id, address } => {
                self.awaits = Awaits::W { id, address, r: cdm, answered_r: cds };
                None
            }
            Awaits::W { id, address, r, answered_r } => {
                self.w(id, address, (r, cdm), (answered_r, cds))
            }
            Awaits::ByteStart { access, unconfirmed } => {
                self.byte_start(access, unconfirmed, cdm, cds)
            }
            Awaits::Byte { access, done, cdm: sent, cds: answered } => self.byte(
                access,
                done + 1,
                sent << 1 | u16::from(cdm),
                answered << 1 | u16::from(cds),
            ),
            Awaits::P(access) => self.p(access, cds),
        }
    }

    pub fn phase(&self) -> Phase {
        match self.awaits {
            Awaits::Rest => Phase::Deaf,
            Awaits::Start => Phase::Rest,
            Awaits::Header { column, .. } => of_header(column),
            Awaits::CommandStart(_) => Phase::CommandStart,
            Awaits::Acknowledge { .. } => Phase::Acknowledge,
            Awaits::Ex { .. } => Phase::Ex,
            Awaits::R { .. } => Phase::R,
            Awaits::W { .. } => Phase::W,
            Awaits::ByteStart { access: a, unconfirmed } => of_byte_start(a.writing, unconfirmed),
            Awaits::Byte { access: a, .. } => {
                of_access(a.writing, Phase::ReadBits, Phase::WriteBits)
            }
            Awaits::P(a) => of_access(a.writing, Phase::ReadP, Phase::WriteP),
        }
    }

    /// Gives an entry after which the reader is deaf.
    fn deaf_after(&mut self, entry: Entry) -> Option<Entry> {
        self.awaits = Awaits::Rest;
        Some(entry)
    }

    fn begin(&mut self, column: usize, cdm: u8) -> Option<Entry> {
        if cdm == 1 {
            self.frame_begun = true;
            self.start = column;
            self.awaits = Awaits::Header { column: 1, bits: 0, locks: 0 };
        }
        None
    }

    /// `column` counts from 1 after S; the bits include this column's.
    fn header(&mut self, column: u8, bits: u16, locks: u16) -> Option<Entry> {
        if column == LAST_HEADER {
            return self.header_end(bits);
        }
        self.awaits = Awaits::Header { column: column + 1, bits, locks };
        if column == FIRST_LOCK + 8 {
            return self.locks(locks & 0x1FF);
        }
        None
    }

    /// IDL0 is the highest of the nine bits.
    fn locks(&mut self, locks: u16) -> Option<Entry> {
        let ones = locks.count_ones();
        let ones_then_zeros = (0x1FF << (9 - ones)) & 0x1FF;
        if locks != ones_then_zeros {
            return self.deaf_after(Entry::of(Kind::LockOdd));
        }
        self.lock = ones as u8;
        Some(Entry::of(Kind::Lock).value(self.lock))
    }

    fn header_end(&mut self, bits: u16) -> Option<Entry> {
        let word = bits >> 4;
        if !check_is_right(bits, HEADER_BITS) {
            return self.deaf_after(Entry::of(Kind::BadHead));
        }
        if word >> 10 == 0 {
            let cmd = (word & 3) as u8;
            let ids = (word >> 2) as u8;
            let command = Command { cmd, ids };
            self.awaits = Awaits::CommandStart(command);
            return Some(command.entry(Kind::Command, ids));
        }
        self.awaits = Awaits::R { id: (word >> 7 & 7) as u8, address: (word & 127) as u8 };
        None
    }

    /// The answer at S is IDA0 of an addressed command; of a broadcast nobody judges it.
    fn command_start(&mut self, command: Command, cdm: u8, cds: u8) -> Option<Entry> {
        self.awaits = if cdm == 0 {
            Awaits::Rest
        } else if command.ids == 0 {
            Awaits::Ex { command, is_odd: false }
        } else {
            Awaits::Acknowledge { command, answered: 1, answers: cds }
        };
        None
    }

    /// `answered` and `answers` include this column's.
    fn acknowledge(&mut self, command: Command, answered: u8, answers: u8) -> Option<Entry> {
        if answered < 8 {
            self.awaits = Awaits::Acknowledge { command, answered, answers };
            return None;
        }
        let is_odd = answers != command.ids & self.locked_ids();
        self.awaits = Awaits::Ex { command, is_odd };
        is_odd.then_some(command.entry(Kind::AckOdd, answers))
    }

    /// The locked IDs of this frame as IDS has them, ID 0 highest.
    fn locked_ids(&self) -> u8 {
        !(0xFF_u16 >> self.lock) as u8
    }

    fn ex(&mut self, command: Command, is_odd: bool, cdm: u8) -> Option<Entry> {
        let kind = match (cdm, is_odd) {
            (0, _) => Kind::Withheld,
            (_, false) => Kind::Executed,
            (_, true) => Kind::Forced,
        };
        self.deaf_after(command.entry(kind, command.ids))
    }

    fn w(&mut self, id: u8, address: u8, sent: (u8, u8), answered: (u8, u8)) -> Option<Entry> {
        let (r, w) = sent;
        let locked = id < self.lock;
        let entry = if r == w {
            Entry::of(Kind::Pair)
        } else if !locked && answered == (0, 0) {
            Entry::of(Kind::Absent)
        } else if locked && answered == (r, 1 - w) {
            Entry::of(Kind::Refused).value(w)
        } else if locked && answered == (r, w) {
            let access = Access { id, address, writing: w == 1, nth: 1 };
            self.awaits = Awaits::ByteStart { access, unconfirmed: false };
            return None;
        } else {
            Entry::of(Kind::Odd).value(2 * answered.0 + answered.1)
        };
        self.deaf_after(entry.place(id, address))
    }

    /// "`mute` only when the master gives up unconfirmed after a 1, in the column of
    /// that 0."
    fn byte_start(&mut self, access: Access, unconfirmed: bool, cdm: u8, cds: u8) -> Option<Entry> {
        if cdm == 0 && unconfirmed {
            return self.deaf_after(Entry::of(Kind::Mute).place(access.id, access.address));
        }
        if cdm == 0 {
            self.awaits = Awaits::Rest;
            return None;
        }
        if cds == 0 {
            self.awaits = Awaits::ByteStart { access, unconfirmed: true };
            return None;
        }
        self.awaits = Awaits::Byte { access, done: 0, cdm: 0, cds: 0 };
        None
    }

    /// `done` counts this column; the bits include this column's.
    fn byte(&mut self, access: Access, done: u8, cdm: u16, cds: u16) -> Option<Entry> {
        if done < BYTE_AND_CHECK {
            self.awaits = Awaits::Byte { access, done, cdm, cds };
            return None;
        }
        self.awaits = Awaits::P(access);
        let carried = if access.writing { cdm } else { cds };
        let kind = match (access.writing, check_is_right(carried, BYTE_BITS)) {
            (false, true) => Kind::Read,
            (false, false) => Kind::ReadBad,
            (true, false) => Kind::WriteBad,
            (true, true) if cds != cdm => Kind::Echo,
            (true, true) => Kind::Written,
        };
        let value = (carried >> 4) as u8;
        Some(Entry::of(kind).place(access.id, access.address).value(value))
    }

    fn p(&mut self, access: Access, cds: u8) -> Option<Entry> {
        if cds == 1 {
            return self.deaf_after(Entry::of(Kind::Closed).place(access.id, access.address));
        }
        if access.address == LAST_ADDRESS || access.nth == MOST_BYTES {
            let entry = Entry::of(Kind::Odd).value(4);
            return self.deaf_after(entry.place(access.id, access.address));
        }
        let (address, nth) = (access.address + 1, access.nth + 1);
        let access = Access { address, nth, ..access };
        self.awaits = Awaits::ByteStart { access, unconfirmed: false };
        None
    }
}
