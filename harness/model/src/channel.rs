//! Where a slave's process data stands. 000, Daisy Chain: the order of the data
//! channels is the reverse of the order of the slave IDs.

use super::Outcome::{self, Made, Refused};

/// The channel place of a slave, from 1; 0 where the chain has no such ID.
pub fn channel_of(id: u8, slaves: usize) -> Outcome {
    if slaves > 16 {
        return Refused(1);
    }
    if id > 7 {
        return Refused(10);
    }
    let from_the_master = (0..slaves).rev();
    let before = from_the_master.take_while(|&other| other != usize::from(id)).count();
    Made(if before < slaves { before + 1 } else { 0 })
}
