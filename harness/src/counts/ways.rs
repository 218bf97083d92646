//! In how many ways each kind of a command's entries was listed.

use super::commands::Commanded;
use super::Counts;
use crate::generate::recordings::{Answers, ANSWERS};
use model::entry::{Entry, Kind};
use model::frame::CODES;
use model::table::Rows;

/// The command's S, counted in columns from that of its frame.
const START: usize = 16;

/// How an entry of kind 17 to 20 came to be listed.
#[derive(Clone, Copy, PartialEq, Eq, PartialOrd, Ord, Debug)]
pub enum Way {
    OfBroadcast,
    /// Addressed, the answers fit: all that are named are locked, some are, none is.
    NamedLocked,
    NamedSome,
    NamedNone,
    /// Nobody, or all eight with more behind them, locked.
    NoLocks,
    NineLocks,
    /// The answer at EX, of a broadcast at its S too, is 1, and not judged.
    UnjudgedAtEx,
    UnjudgedAtStart,
    /// In this way alone the answers do not fit: somebody named and locked is silent, or
    /// one speaks that is locked and not named, named and not locked, or neither.
    Silent,
    SpeaksLocked,
    SpeaksNamed,
    SpeaksNeither,
    /// In several of these ways.
    Mixed,
    /// They do not fit, and nobody speaks, or all eight do.
    AllSilent,
    AllSpeak,
    /// Nothing behind the answers: the row has ended.
    EndsThere,
}

use Way::*;

/// The kinds of a command behind its header, and the ways in which each can be listed.
pub const LISTED: [(Kind, &[Way]); 4] = [
    (
        Kind::Executed,
        &[
            OfBroadcast,
            NamedLocked,
            NamedSome,
            NamedNone,
            NoLocks,
            NineLocks,
            UnjudgedAtEx,
            UnjudgedAtStart,
        ],
    ),
    (
        Kind::Withheld,
        &[
            OfBroadcast,
            NamedLocked,
            NamedSome,
            NamedNone,
            NoLocks,
            NineLocks,
            UnjudgedAtEx,
            UnjudgedAtStart,
            Silent,
            SpeaksLocked,
            SpeaksNamed,
            SpeaksNeither,
            Mixed,
            AllSilent,
            AllSpeak,
        ],
    ),
    (
        Kind::AckOdd,
        &[
            NoLocks,
            NineLocks,
            Silent,
            SpeaksLocked,
            SpeaksNamed,
            SpeaksNeither,
            Mixed,
            AllSilent,
            AllSpeak,
            EndsThere,
        ],
    ),
    (
        Kind::Forced,
        &[
            NoLocks,
            NineLocks,
            UnjudgedAtEx,
            Silent,
            SpeaksLocked,
            SpeaksNamed,
            SpeaksNeither,
            Mixed,
            AllSilent,
            AllSpeak,
        ],
    ),
];

/// The kinds that a chain's own rows have, and all rows.
pub fn coded(answers: Answers) -> &'static [Kind] {
    match answers {
        Answers::Honest => &[Kind::Executed, Kind::Withheld],
        _ => &[Kind::Executed, Kind::Withheld, Kind::AckOdd, Kind::Forced],
    }
}

/// Bits as a byte, highest first.
fn byte(bits: &[u8]) -> u8 {
    bits.iter().fold(0, |byte, bit| byte << 1 | bit)
}

impl Counts {
    /// Counts the entries of commands in a list, and how each came to be listed.
    pub fn add_read_commands(&mut self, answers: Answers, [cdm, cds]: Rows, list: &[Entry]) {
        for entry in list.iter().filter(|entry| entry.kind as u8 >= Kind::Executed as u8) {
            self.add_commanded(Commanded::Coded(answers, entry.kind as u8, entry.id));
            for way in ways(cdm, cds, entry) {
                self.add_commanded(Commanded::Listed(entry.kind as u8, way));
            }
        }
    }
}

/// The ways in which an entry of a command came to be listed.
fn ways(cdm: &[u8], cds: &[u8], entry: &Entry) -> Vec<Way> {
    let start = entry.start;
    let [ids, locks] = [byte(&cdm[start + 2..start + 10]), byte(&cds[start + 1..start + 9])];
    let mut ways = Vec::new();
    if entry.kind != Kind::AckOdd && cds[entry.column] == 1 {
        ways.push(UnjudgedAtEx);
    }
    if ids == 0 {
        ways.push(OfBroadcast);
        ways.extend((cds[start + START] == 1).then_some(UnjudgedAtStart));
        return ways;
    }
    ways.extend((locks == 0).then_some(NoLocks));
    ways.extend((cds[start + 9] == 1).then_some(NineLocks));
    if entry.kind == Kind::AckOdd && entry.column + 1 == cdm.len() {
        ways.push(EndsThere);
    }
    let answers = byte(&cds[start + START..start + START + 8]);
    ways.extend(fitting(ids, locks, answers));
    ways
}

/// How answers fit, or do not.
fn fitting(ids: u8, locks: u8, answers: u8) -> Vec<Way> {
    let wrong = [
        (Silent, ids & locks & !answers),
        (SpeaksLocked, !ids & locks & answers),
        (SpeaksNamed, ids & !locks & answers),
        (SpeaksNeither, !ids & !locks & answers),
    ];
    let wrong: Vec<Way> = wrong.iter().filter(|wrong| wrong.1 != 0).map(|wrong| wrong.0).collect();
    let all = match answers {
        0 => Some(AllSilent),
        0xFF => Some(AllSpeak),
        _ => None,
    };
    match wrong[..] {
        [] if ids & locks == ids => vec![NamedLocked],
        [] if ids & locks == 0 => vec![NamedNone],
        [] => vec![NamedSome],
        [way] => [way].into_iter().chain(all).collect(),
        _ => [Way::Mixed].into_iter().chain(all).collect(),
    }
}

pub fn expected() -> Vec<Commanded> {
    let mut all = Vec::new();
    for (kind, ways) in LISTED {
        all.extend(ways.iter().map(|&way| Commanded::Listed(kind as u8, way)));
    }
    for answers in ANSWERS {
        for &kind in coded(answers) {
            all.extend((0..CODES as u8).map(|cmd| Commanded::Coded(answers, kind as u8, cmd)));
        }
    }
    all
}
