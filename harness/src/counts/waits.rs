//! Bytes that wait: how long, what became of them, and whether the master repeated S
//! as often as its slave waits.

use super::{Count, Counts};
use crate::generate::frames::Repeats;
use crate::generate::rows::Known;
use model::entry::{Entry, Kind};

/// Waiting numbers that are counted apart; all others together.
pub const WAITS: [Option<u8>; 5] = [Some(0), Some(1), Some(3), Some(255), None];

/// What becomes of a byte.
pub const BYTES: [Kind; 4] = [Kind::Read, Kind::Written, Kind::WriteBad, Kind::Mute];

/// What can become of it where the master repeats S so. Nothing goes wrong where it does
/// exactly; where it does too little at every byte, none is read.
pub const REPEATED: [(Repeats, &[Kind]); 5] = [
    (Repeats::Exactly, &[Kind::Read, Kind::Written]),
    (Repeats::TooLittle, &[Kind::Written, Kind::WriteBad, Kind::Mute]),
    (Repeats::TooMuch, &BYTES),
    (Repeats::OnceTooLittle, &BYTES),
    (Repeats::OnceTooMuch, &BYTES),
];

/// Columns of a frame, counted from S: W, and where the first byte of a write ends.
const W: usize = 17;
const FIRST_WRITTEN: usize = 30;

/// Such a waiting number, as it is told.
pub fn told(wait: Option<u8>) -> String {
    wait.map_or("other".to_string(), |wait| wait.to_string())
}

fn counted_apart(wait: u8) -> Option<u8> {
    Some(wait).filter(|_| WAITS.contains(&Some(wait)))
}

impl Counts {
    /// Counts an account's bytes; `known` are the frames whose repeats are known.
    pub fn add_waits(&mut self, waits: &[u8], cdm: &[u8], known: &[Known], account: &[Entry]) {
        for entry in account.iter().filter(|entry| BYTES.contains(&entry.kind)) {
            let is_writing = cdm[entry.start + W] == 1;
            let has_waited = !is_writing || entry.column > entry.start + FIRST_WRITTEN;
            let wait = counted_apart(waits[usize::from(entry.id)]);
            if entry.kind == Kind::Mute {
                self.add_one(Count::GivenUp(is_writing, wait));
            } else if has_waited {
                self.add_one(Count::Confirmed(is_writing, wait));
            }
            let is_of = |known: &&Known| known.start == entry.start && entry.column < known.end;
            if let Some(known) = known.iter().find(is_of) {
                self.add_one(Count::Repeated(known.repeats, entry.kind as u8));
            }
        }
    }
}

/// A slave that waits 0 is never given up.
pub fn expected() -> Vec<Count> {
    let mut all = Vec::new();
    for is_writing in [false, true] {
        all.extend(WAITS.map(|wait| Count::Confirmed(is_writing, wait)));
        all.extend(WAITS[1..].iter().map(|&wait| Count::GivenUp(is_writing, wait)));
    }
    for (repeats, kinds) in REPEATED {
        all.extend(kinds.iter().map(|&kind| Count::Repeated(repeats, kind as u8)));
    }
    all
}
