//! The phases of a slave and of the reader, named for the counts.

use super::frame::FIRST_LOCK;

#[derive(Clone, Copy, PartialEq, Eq, PartialOrd, Ord, Debug)]
pub enum Phase {
    PowerOn,
    Rest,
    Locks,
    Header,
    CommandStart,
    Acknowledge,
    Ex,
    R,
    W,
    ReadStart,
    ReadWaits,
    ReadBits,
    ReadP,
    WriteStart,
    WriteWaits,
    WriteBits,
    WriteP,
    Deaf,
}

pub const PHASES: [Phase; 18] = [
    Phase::PowerOn,
    Phase::Rest,
    Phase::Locks,
    Phase::Header,
    Phase::CommandStart,
    Phase::Acknowledge,
    Phase::Ex,
    Phase::R,
    Phase::W,
    Phase::ReadStart,
    Phase::ReadWaits,
    Phase::ReadBits,
    Phase::ReadP,
    Phase::WriteStart,
    Phase::WriteWaits,
    Phase::WriteBits,
    Phase::WriteP,
    Phase::Deaf,
];

/// The phase of a header's column, counted from 1 after S.
pub fn of_header(column: u8) -> Phase {
    if (FIRST_LOCK..=FIRST_LOCK + 8).contains(&column) {
        Phase::Locks
    } else {
        Phase::Header
    }
}

/// The phase of a command's column, counted from its S, where EX stands in this one.
pub fn of_command(column: u8, ex: u8) -> Phase {
    match column {
        0 => Phase::CommandStart,
        _ if column == ex => Phase::Ex,
        _ => Phase::Acknowledge,
    }
}

/// A phase of a read, or the same one of a write.
pub fn of_access(writing: bool, read: Phase, write: Phase) -> Phase {
    if writing {
        write
    } else {
        read
    }
}

/// The phase of a byte's S, before the first 1 there or after one that was answered 0.
pub fn of_byte_start(writing: bool, waits: bool) -> Phase {
    if waits {
        of_access(writing, Phase::ReadWaits, Phase::WriteWaits)
    } else {
        of_access(writing, Phase::ReadStart, Phase::WriteStart)
    }
}

/// The phases met by one machine, or by several.
#[derive(Clone, Copy)]
pub struct Met([bool; PHASES.len()]);

impl Met {
    pub fn none() -> Met {
        Met([false; PHASES.len()])
    }

    /// A deaf machine that was never at rest is one after power-on.
    pub fn meet(&mut self, phase: Phase) {
        let deaf_from_power_on = phase == Phase::Deaf && !self.has(Phase::Rest);
        self.0[if deaf_from_power_on { Phase::PowerOn } else { phase } as usize] = true;
    }

    pub fn has(&self, phase: Phase) -> bool {
        self.0[phase as usize]
    }
}
