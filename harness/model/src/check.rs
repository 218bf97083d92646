//! "Check bits. Polynomial 0x13, start value 0, sent inverted, highest first."

const POLYNOMIAL: u32 = 0x13;

pub const HEADER_BITS: u32 = 11;
pub const BYTE_BITS: u32 = 8;

/// The four check bits, as sent, of the lowest `width` bits of `word`.
pub fn check_bits(word: u16, width: u32) -> u8 {
    let mut rest = u32::from(word) << 4;
    for place in (4..width + 4).rev() {
        if rest >> place & 1 == 1 {
            rest ^= POLYNOMIAL << (place - 4);
        }
    }
    rest as u8 ^ 0xF
}

/// Takes a word and its four check bits apart and says whether they agree.
pub fn check_is_right(word_and_check: u16, width: u32) -> bool {
    check_bits(word_and_check >> 4, width) == (word_and_check & 0xF) as u8
}

/// "CTS = 1 is a register access: ID (3 bits), address (7)."
pub fn register_word(id: u8, address: u8) -> u16 {
    1 << 10 | u16::from(id) << 7 | u16::from(address)
}

/// "CTS = 0 is a command: IDS (8), CMD (2)."
pub fn command_word(ids: u8, cmd: u8) -> u16 {
    u16::from(ids) << 2 | u16::from(cmd)
}
