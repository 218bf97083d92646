//! The table of jobs, and the calls: one trait, which the model and the library
//! under test both have.

mod access;
mod build_command;
mod build_read;
mod build_write;
mod list_to_text;
mod read;
mod read_all;
mod rows_to_text;
mod run;
mod text_to_rows;

use crate::case::Listed;
use crate::library::{self, Library, Told};
use model::table::{Rows, Stretch};
use model::Outcome;

/// The model, as one of the two that are called.
pub struct Model;

/// The bytes of each job's list, or a refusal.
pub type Lists = Result<Vec<Vec<u8>>, Outcome>;

/// A line a call: its name and arguments, which the model's and the library's
/// function share. Where it is a job of seeds: the struct of its cases, and its
/// share of them.
macro_rules! table {
    ($($name:ident($($argument:ident: $kind:ty),*) $(=> $job:ty, $share:literal)?;)*) => {
        pub trait Calls {
            $(fn $name(&self, $($argument: $kind),*) -> Outcome;)*

            /// The lists of a table's jobs, in buffers that are not lent, where they
            /// can be had so.
            fn lists(&self, _: Rows, _: &[Stretch]) -> Option<Lists> {
                None
            }
        }

        impl Calls for Model {
            $(fn $name(&self, $($argument: $kind),*) -> Outcome {
                model::$name($($argument),*)
            })*
        }

        impl Calls for Library {
            $(fn $name(&self, $($argument: $kind),*) -> Outcome {
                library::functions::$name($($argument),*).told()
            })*

            fn lists(&self, rows: Rows, jobs: &[Stretch]) -> Option<Lists> {
                library::lists(rows, jobs)
            }
        }

        pub const JOBS: &[Listed] = &[$($(Listed::new::<$job>(stringify!($name), $share),)?)*];
    };
}

table! {
    build_read(id: u8, address: u8, count: usize, wait: u8, out: &mut [u8])
        => build_read::BuildRead, 3;
    build_write(id: u8, address: u8, bytes: &[u8], wait: u8, out: &mut [u8])
        => build_write::BuildWrite, 3;
    build_command(ids: u8, cmd: u8, execute: bool, out: &mut [u8])
        => build_command::BuildCommand, 2;
    run(
        slaves: usize, banks: &[u8], rights: &[u8], waits: &[u8], registers: &mut [u8],
        counts: &mut [u32], cdm: &[u8], cds: &mut [u8]
    ) => run::Run, 31;
    read(cdm: &[u8], cds: &[u8], opening: usize, out: &mut [u8]) => read::Read, 31;
    read_all(rows: Rows, jobs: &[Stretch], out: &mut [u8], counts: &mut [usize])
        => read_all::ReadAll, 8;
    text_to_rows(text: &[u8], cdm: &mut [u8], cds: &mut [u8]) => text_to_rows::TextToRows, 12;
    rows_to_text(cdm: &[u8], cds: &[u8], out: &mut [u8]) => rows_to_text::RowsToText, 9;
    list_to_text(list: &[u8], out: &mut [u8]) => list_to_text::ListToText, 10;
    channel_of(id: u8, slaves: usize);
}
