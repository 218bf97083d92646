//! "A row holds one byte per column, 0 or 1. ... A row has 0 to 4,096 columns."

pub const MOST_COLUMNS: usize = 4096;
pub const ZEROS_TO_REST: usize = 14;

/// Refusal 5 for one row.
pub fn is_too_long(row: &[u8]) -> bool {
    row.len() > MOST_COLUMNS
}

/// Refusal 7 for one row.
pub fn has_bad_byte(row: &[u8]) -> bool {
    row.iter().any(|&byte| byte > 1)
}

/// Refusals 5, 6 and 7 for two rows that are both judged.
pub fn refusal_of_rows(cdm: &[u8], cds: &[u8]) -> Option<u8> {
    if is_too_long(cdm) || is_too_long(cds) {
        return Some(5);
    }
    if cdm.len() != cds.len() {
        return Some(6);
    }
    (has_bad_byte(cdm) || has_bad_byte(cds)).then_some(7)
}

/// Counts the CDM zeros in a row up to now.
#[derive(Clone, Copy)]
pub struct Zeros(usize);

impl Zeros {
    /// "At power-on nobody is at rest."
    pub fn none_yet() -> Zeros {
        Zeros(0)
    }

    /// Takes a CDM bit; true in the fourteenth zero and "while zeros last".
    pub fn rest_after(&mut self, cdm: u8) -> bool {
        self.0 = if cdm == 0 { self.0 + 1 } else { 0 };
        self.0 >= ZEROS_TO_REST
    }
}
