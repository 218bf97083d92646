//! Commands: to whom, what became of them, where they were cut, which slaves counted them.

use super::ways::{self, Way};
use super::{kind_name, Count, Counts};
use crate::generate::recordings::Answers;
use crate::generate::tables::starts;
use model::entry::{Entry, Kind};
use model::frame::CODES;
use std::fmt;
use std::ops::RangeInclusive;

/// What is counted of commands.
#[derive(Clone, Copy, PartialEq, Eq, PartialOrd, Ord)]
pub enum Commanded {
    /// Of honest rows, by their code, and what became of them.
    Became(Form, u8, Fate),
    /// Executed by chains of so many slaves; for a slave, by its place.
    ExecutedBy(Form, usize),
    CountedFor(Form, usize, u8),
    /// Rows that end in a command, so many columns behind its frame's S; of one that is
    /// cut in its header the form is not looked at.
    Cut(Option<Form>, usize),
    /// What else they met.
    Ordered(Order),
    /// Entries of a kind of theirs, by their code, in lists of rows with such answers.
    Coded(Answers, u8, u8),
    /// Such entries, and how they came to be listed.
    Listed(u8, Way),
}

impl fmt::Display for Commanded {
    fn fmt(&self, to: &mut fmt::Formatter) -> fmt::Result {
        match self {
            Commanded::Became(form, cmd, fate) => write!(to, "{form:?} CMD {cmd} {fate:?}"),
            Commanded::ExecutedBy(form, slaves) => write!(to, "{form:?}, {slaves} slaves"),
            Commanded::CountedFor(form, slave, cmd) => {
                write!(to, "{form:?} CMD {cmd} counted for slave {slave}")
            }
            Commanded::Cut(form, column) => write!(to, "{form:?} cut at {column}"),
            Commanded::Ordered(met) => write!(to, "{met:?}"),
            Commanded::Coded(answers, kind, cmd) => {
                write!(to, "{answers:?} {} CMD {cmd}", kind_name(*kind))
            }
            Commanded::Listed(kind, way) => write!(to, "{} {way:?}", kind_name(*kind)),
        }
    }
}

#[derive(Clone, Copy, PartialEq, Eq, PartialOrd, Ord, Debug)]
pub enum Form {
    Broadcast,
    Addressed,
}

pub const FORMS: [Form; 2] = [Form::Broadcast, Form::Addressed];
pub const SLAVES: RangeInclusive<usize> = 0..=16;

/// Columns of a frame, counted from S: its last header column and the command's S.
const HEADER: usize = 15;
const START: usize = 16;

impl Form {
    fn of(ids: u8) -> Form {
        FORMS[usize::from(ids != 0)]
    }

    /// The column of EX, counted from the frame's S.
    fn ex(self) -> usize {
        [17, 24][self as usize]
    }

    /// The columns of a frame at which a row can end with a command listed and its EX not.
    pub fn cuts(self) -> RangeInclusive<usize> {
        HEADER..=self.ex() - 1
    }

    /// How many slaves of a chain such a command can be counted for.
    pub fn slaves(self) -> usize {
        [16, 8][self as usize]
    }
}

/// The columns of a frame at which a row can end in a command's header.
pub const HEADER_CUTS: RangeInclusive<usize> = 1..=HEADER - 1;

/// What became of a command in an honest row.
#[derive(Clone, Copy, PartialEq, Eq, PartialOrd, Ord, Debug)]
pub enum Fate {
    Executed,
    Withheld,
    /// The command's S was 0.
    NoStart,
}

pub const FATES: [Fate; 3] = [Fate::Executed, Fate::Withheld, Fate::NoStart];

/// What a command of an honest row met.
#[derive(Clone, Copy, PartialEq, Eq, PartialOrd, Ord, Debug)]
pub enum Order {
    /// Executed, of an addressed one by whether those that it names are there.
    AllThere,
    SomeThere,
    NobodyThere,
    /// Addressed: the master's bits between S and EX, and whether EX is 1.
    Between(Bits, bool),
    /// Ones behind EX, in the same frame.
    GoesOn,
    /// Executed, behind one of the same code, of another one, and right behind one that
    /// was withheld; and withheld right behind one that was executed.
    SameAgain,
    BehindOther,
    BehindWithheld,
    WithheldBehind,
    /// Executed behind a byte, and a byte behind one that was executed.
    BehindByte,
    ByteBehind,
    /// A slave counts as many as a row has room for.
    Most,
    /// A chain that counts nothing.
    NothingCounted,
}

#[derive(Clone, Copy, PartialEq, Eq, PartialOrd, Ord, Debug)]
pub enum Bits {
    Zeros,
    Ones,
    Mixed,
}

pub const ORDERS: [Order; 18] = [
    Order::AllThere,
    Order::SomeThere,
    Order::NobodyThere,
    Order::Between(Bits::Zeros, false),
    Order::Between(Bits::Zeros, true),
    Order::Between(Bits::Ones, false),
    Order::Between(Bits::Ones, true),
    Order::Between(Bits::Mixed, false),
    Order::Between(Bits::Mixed, true),
    Order::GoesOn,
    Order::SameAgain,
    Order::BehindOther,
    Order::BehindWithheld,
    Order::WithheldBehind,
    Order::BehindByte,
    Order::ByteBehind,
    Order::Most,
    Order::NothingCounted,
];

/// 128 broadcasts fill a row.
const MOST: u32 = 128;

fn is_command(entry: &&Entry) -> bool {
    entry.kind == Kind::Command
}

fn is_ex(entry: &Entry) -> bool {
    [Kind::Executed, Kind::Withheld].contains(&entry.kind)
}

fn is_byte(entry: &Entry) -> bool {
    [Kind::Read, Kind::Written].contains(&entry.kind)
}

impl Counts {
    pub fn add_commanded(&mut self, met: Commanded) {
        self.add_one(Count::Command(met));
    }

    pub fn of_command(&self, met: Commanded) -> u64 {
        self.of(Count::Command(met))
    }

    /// Counts the commands of an honest row, by its account and the counts that it left.
    pub fn add_run_commands(
        &mut self,
        slaves: usize,
        cdm: &[u8],
        account: &[Entry],
        executed: &[u32],
    ) {
        for command in account.iter().filter(is_command) {
            let is_ex = |entry: &&Entry| entry.start == command.start && is_ex(entry);
            match account.iter().find(is_ex) {
                Some(entry) => self.add_order(slaves, cdm, entry),
                None => self.add_unfinished(cdm, command),
            }
        }
        let last = starts(cdm).last().copied();
        let columns = last.map_or(0, |start| cdm.len() - 1 - start);
        if HEADER_CUTS.contains(&columns) && last.is_some_and(|start| cdm[start + 1] == 0) {
            self.add_commanded(Commanded::Cut(None, columns));
        }
        self.add_sequence(account);
        if executed.contains(&MOST) {
            self.add_commanded(Commanded::Ordered(Order::Most));
        }
        if slaves > 0 && executed.iter().all(|&count| count == 0) {
            self.add_commanded(Commanded::Ordered(Order::NothingCounted));
        }
    }

    /// Counts a command whose EX was sent, by the entry of EX.
    fn add_order(&mut self, slaves: usize, cdm: &[u8], entry: &Entry) {
        let (form, cmd) = (Form::of(entry.value), entry.id);
        let is_executed = entry.kind == Kind::Executed;
        let fate = if is_executed { Fate::Executed } else { Fate::Withheld };
        self.add_commanded(Commanded::Became(form, cmd, fate));
        let is_named = |slave: usize| slave < 8 && entry.value << slave & 0x80 != 0;
        let named = (0..8).filter(|&id| is_named(id)).count();
        let there = (0..slaves).filter(|&slave| is_named(slave)).count();
        if form == Form::Addressed {
            let between = &cdm[entry.column - 7..entry.column];
            let bits = match between.iter().sum() {
                0u8 => Bits::Zeros,
                7 => Bits::Ones,
                _ => Bits::Mixed,
            };
            self.add_commanded(Commanded::Ordered(Order::Between(bits, is_executed)));
        }
        // The bit right behind EX is never S: fourteen zeros are missing.
        if cdm[entry.column..].iter().skip(1).take(14).any(|&bit| bit == 1) {
            self.add_commanded(Commanded::Ordered(Order::GoesOn));
        }
        if !is_executed {
            return;
        }
        self.add_commanded(Commanded::ExecutedBy(form, slaves));
        let counts = |slave: &usize| form == Form::Broadcast || is_named(*slave);
        for slave in (0..slaves).filter(counts) {
            self.add_commanded(Commanded::CountedFor(form, slave, cmd));
        }
        if form == Form::Addressed {
            self.add_commanded(Commanded::Ordered(match there {
                0 => Order::NobodyThere,
                _ if there == named => Order::AllThere,
                _ => Order::SomeThere,
            }));
        }
    }

    /// Counts a command whose S was 0, or that the row's end cut.
    fn add_unfinished(&mut self, cdm: &[u8], command: &Entry) {
        let form = Form::of(command.value);
        if cdm.get(command.start + START) == Some(&0) {
            self.add_commanded(Commanded::Became(form, command.id, Fate::NoStart));
        } else {
            self.add_commanded(Commanded::Cut(Some(form), cdm.len() - 1 - command.start));
        }
    }

    /// Counts which entries of an account come behind which.
    fn add_sequence(&mut self, account: &[Entry]) {
        let (mut codes, mut has_byte, mut last) = ([false; CODES], false, None);
        for entry in account {
            let is_executed = entry.kind == Kind::Executed;
            let code = usize::from(entry.id);
            if is_executed {
                let others = (0..CODES).any(|other| other != code && codes[other]);
                let met = [
                    (codes[code], Order::SameAgain),
                    (others, Order::BehindOther),
                    (last == Some(Kind::Withheld), Order::BehindWithheld),
                    (has_byte, Order::BehindByte),
                ];
                met.iter()
                    .filter(|met| met.0)
                    .for_each(|met| self.add_commanded(Commanded::Ordered(met.1)));
                codes[code] = true;
            }
            if entry.kind == Kind::Withheld && last == Some(Kind::Executed) {
                self.add_commanded(Commanded::Ordered(Order::WithheldBehind));
            }
            if is_byte(entry) && codes.contains(&true) {
                self.add_commanded(Commanded::Ordered(Order::ByteBehind));
            }
            has_byte |= is_byte(entry);
            if is_ex(entry) {
                last = Some(entry.kind);
            }
        }
    }
}

pub fn expected() -> Vec<Count> {
    let mut all: Vec<Commanded> = ORDERS.map(Commanded::Ordered).into();
    all.extend(HEADER_CUTS.map(|column| Commanded::Cut(None, column)));
    for form in FORMS {
        for cmd in 0..CODES as u8 {
            all.extend(FATES.map(|fate| Commanded::Became(form, cmd, fate)));
            all.extend((0..form.slaves()).map(|slave| Commanded::CountedFor(form, slave, cmd)));
        }
        all.extend(SLAVES.map(|slaves| Commanded::ExecutedBy(form, slaves)));
        all.extend(form.cuts().map(|column| Commanded::Cut(Some(form), column)));
    }
    all.extend(ways::expected());
    all.into_iter().map(Count::Command).collect()
}
