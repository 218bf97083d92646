//! Nine bytes: "kind, column (two bytes, high first)", "two bytes for S placed
//! after the column", "id, address", "`bank` after the address", "value".

use super::frame::BANK_BYTES;
use std::ops::Range;

pub const ENTRY_BYTES: usize = 9;

/// Where a field stands among them.
pub const KIND: usize = 0;
pub const COLUMN: Range<usize> = 1..3;
pub const START: Range<usize> = 3..5;
pub const ID: usize = 5;
pub const ADDRESS: usize = 6;
pub const BANK: usize = 7;
pub const VALUE: usize = 8;

/// The bank of an ID whose bank register no earlier entry writes.
pub const NO_BANK_YET: u8 = 255;

#[derive(Clone, Copy, PartialEq, Eq, Debug)]
pub enum Kind {
    Lock = 1,
    LockOdd = 2,
    BadHead = 3,
    Command = 4,
    Pair = 5,
    Absent = 6,
    Refused = 7,
    Odd = 8,
    Mute = 9,
    Read = 10,
    Written = 11,
    ReadBad = 12,
    WriteBad = 13,
    Echo = 14,
    End = 15,
    Closed = 16,
    Executed = 17,
    Withheld = 18,
    AckOdd = 19,
    Forced = 20,
}

/// An entry; "fields not named are 0".
#[derive(Clone, Copy, PartialEq, Eq, Debug)]
pub struct Entry {
    pub kind: Kind,
    pub column: usize,
    /// The column of its frame's S.
    pub start: usize,
    pub id: u8,
    pub address: u8,
    pub bank: u8,
    pub value: u8,
}

impl Entry {
    pub fn of(kind: Kind) -> Entry {
        Entry { kind, column: 0, start: 0, id: 0, address: 0, bank: 0, value: 0 }
    }

    pub fn at(self, column: usize) -> Entry {
        Entry { column, ..self }
    }

    pub fn start(self, start: usize) -> Entry {
        Entry { start, ..self }
    }

    pub fn place(self, id: u8, address: u8) -> Entry {
        Entry { id, address, ..self }
    }

    pub fn bank(self, bank: u8) -> Entry {
        Entry { bank, ..self }
    }

    pub fn value(self, value: u8) -> Entry {
        Entry { value, ..self }
    }

    pub fn bytes(self) -> [u8; ENTRY_BYTES] {
        let mut bytes = [0; ENTRY_BYTES];
        bytes[KIND] = self.kind as u8;
        bytes[COLUMN].copy_from_slice(&two_bytes(self.column));
        bytes[START].copy_from_slice(&two_bytes(self.start));
        bytes[ID] = self.id;
        bytes[ADDRESS] = self.address;
        bytes[BANK] = self.bank;
        bytes[VALUE] = self.value;
        bytes
    }
}

/// A column as "two bytes, high first".
fn two_bytes(column: usize) -> [u8; 2] {
    [(column >> 8) as u8, (column & 0xFF) as u8]
}

/// The column that such bytes hold.
pub fn column_in(bytes: &[u8]) -> usize {
    bytes.iter().fold(0, |high, &low| high << 8 | usize::from(low))
}

/// Whether an entry of a kind, 1 to 20, names a bank: "named at addresses 0 to 63".
pub fn names_bank(kind: u8, address: u8) -> bool {
    FORMS[usize::from(kind) - 1].address && usize::from(address) < BANK_BYTES
}

/// How a kind is printed: its name and which fields it names.
pub struct Form {
    pub name: &'static str,
    pub id: bool,
    pub address: bool,
    pub value: bool,
}

const fn form(name: &'static str, id: bool, address: bool, value: bool) -> Form {
    Form { name, id, address, value }
}

/// The forms of kinds 1 to 20, in this order.
pub const FORMS: [Form; 20] = [
    form("lock", false, false, true),
    form("lockodd", false, false, false),
    form("badhead", false, false, false),
    form("command", true, false, true),
    form("pair", true, true, false),
    form("absent", true, true, false),
    form("refused", true, true, true),
    form("odd", true, true, true),
    form("mute", true, true, false),
    form("read", true, true, true),
    form("written", true, true, true),
    form("readbad", true, true, true),
    form("writebad", true, true, true),
    form("echo", true, true, true),
    form("end", false, false, false),
    form("closed", true, true, false),
    form("executed", true, false, true),
    form("withheld", true, false, true),
    form("ackodd", true, false, true),
    form("forced", true, false, true),
];
