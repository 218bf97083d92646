//! Paper 01, with what paper 02 has changed, as a plain program. Each file holds one
//! part of the paper.

pub mod account;
pub mod build;
pub mod chain;
pub mod channel;
pub mod check;
pub mod entry;
pub mod frame;
pub mod index;
pub mod list;
pub mod phase;
pub mod reader;
pub mod replay;
pub mod rows;
pub mod slave;
pub mod table;
pub mod text;

pub use build::{build_command, build_read, build_write};
pub use chain::run;
pub use channel::channel_of;
pub use index::index;
pub use list::{list_to_text, read};
pub use table::read_all;
pub use text::{rows_to_text, text_to_rows};

/// What a job returns.
#[derive(Clone, Copy, PartialEq, Eq, Debug)]
pub enum Outcome {
    /// How many columns, bytes or entries were made.
    Made(usize),
    /// The number of the refusal.
    Refused(u8),
    /// A refusal of a text, 13 to 17.
    InText(Fault),
    /// A refusal of a job of a table, 20, 5, 7 or 8; the table's jobs count from 0.
    OfJob { number: u8, job: usize },
}

/// What is wrong with a text: the number, the line, counted from 1, and the byte
/// in that line, counted from 0.
#[derive(Clone, Copy, PartialEq, Eq, Debug)]
pub struct Fault {
    pub number: u8,
    pub line: usize,
    pub byte: usize,
}

impl Outcome {
    /// The number of the refusal, if it is one.
    pub fn refusal(self) -> Option<u8> {
        match self {
            Outcome::Made(_) => None,
            Outcome::Refused(number) | Outcome::OfJob { number, .. } => Some(number),
            Outcome::InText(fault) => Some(fault.number),
        }
    }
}
