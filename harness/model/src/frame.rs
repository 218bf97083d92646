//! Places and limits of a frame.

/// House rule: the column after S that answers IDL0; IDL8 is eight further.
pub const FIRST_LOCK: u8 = 1;

/// "Fifteen columns after S: CTS, ten bits, four check bits."
pub const LAST_HEADER: u8 = 15;

/// The columns of a command, counted from its S: "another start bit (S)", whose column
/// answers IDA0, "7 Cycles", then EX (000, figure 33).
pub const FIRST_ACKNOWLEDGE: u8 = 0;
pub const EX_ADDRESSED: u8 = 8;

/// Of a broadcast "the IDA bits are omitted and the master directly sends the EX bit".
pub const EX_BROADCAST: u8 = 1;

/// The codes of a command, CMD 0 to 3: a count for each.
pub const CODES: usize = 4;

/// Data and check bits of a byte.
pub const BYTE_AND_CHECK: u8 = 12;

/// The most bytes of one access.
pub const MOST_BYTES: u8 = 64;

/// The addresses of a slave: "addresses 0 to 63 show the chosen bank".
pub const ADDRESSES: usize = 128;

/// "Banks of 64 bytes"; the fixed registers are as many.
pub const BANK_BYTES: usize = 64;

/// "A table gives each slave 1 to 8 banks."
pub const MOST_BANKS: u8 = 8;

/// The address of the bank register, the first fixed one (000: BSEL).
pub const BANK_REGISTER: u8 = 64;

/// The registers of a slave with so many banks, and its rights: "64 x (banks + 1)
/// bytes a slave".
pub fn registers_of(banks: u8) -> usize {
    BANK_BYTES * (usize::from(banks) + 1)
}
