//! A table whose lists need more room than the wrapper lends at first.

use crate::jobs::Calls;
use crate::library::{self, Library};
use model::list::list;

/// What the wrapper lends at first.
const FIRST_ROOM: usize = 1 << 24;
const JOBS: usize = 4000;

/// The longest stretch with the most entries, so often that their lists need more; says
/// whether all are listed. Only the wrapper makes buffers of its own.
pub fn large_table() -> bool {
    // Locks and an end in every fifteen columns.
    let frame = [vec![0; 14], vec![1]].concat();
    let cdm: Vec<u8> = frame.into_iter().cycle().take(4096).collect();
    let cds = vec![0; cdm.len()];
    let wanted: Vec<u8> = list(&cdm, &cds, 0).iter().flat_map(|entry| entry.bytes()).collect();
    let jobs = vec![[0, cdm.len(), 0]; JOBS];
    let Some(lists) = Library.lists([&cdm, &cds], &jobs) else { return true };
    let is_listed = lists.is_ok_and(|lists| lists == vec![wanted.clone(); JOBS]);
    let bytes = JOBS * wanted.len();
    if !is_listed || bytes <= FIRST_ROOM {
        println!("DIFFERENCE at a table of {bytes} bytes");
    }
    println!("large table: {bytes} bytes of lists, model against {}", library::NAME);
    is_listed && bytes > FIRST_ROOM
}
