//! Replay: what a list alone tells about the registers, and about the executions.

use super::account::place;
use super::entry::{Entry, Kind};
use super::frame::CODES;

/// Registers that the `written` entries of a list are put into, each where "the replayed
/// bank register" has it.
struct Replayed<'a> {
    banks: &'a [u8],
    registers: Vec<u8>,
}

impl Replayed<'_> {
    /// The register that an entry names, if there is one.
    fn at(&mut self, entry: &Entry) -> Option<&mut u8> {
        let place = place(self.banks, &self.registers, entry.id, entry.address)?;
        self.registers.get_mut(place)
    }

    fn write(&mut self, entry: &Entry) {
        if let Some(register) = self.at(entry) {
            *register = entry.value;
        }
    }
}

/// The registers after all `written` entries of a list.
pub fn replay(banks: &[u8], registers: &[u8], entries: &[Entry]) -> Vec<u8> {
    let mut replayed = Replayed { banks, registers: registers.to_vec() };
    let written = entries.iter().filter(|entry| entry.kind == Kind::Written);
    written.for_each(|entry| replayed.write(entry));
    replayed.registers
}

/// Whether every `read` shows what stood there after the entries before it.
pub fn reads_show_what_stood(banks: &[u8], registers: &[u8], entries: &[Entry]) -> bool {
    let mut replayed = Replayed { banks, registers: registers.to_vec() };
    entries.iter().all(|entry| match entry.kind {
        Kind::Written => {
            replayed.write(entry);
            true
        }
        Kind::Read => replayed.at(entry).is_some_and(|stood| *stood == entry.value),
        _ => true,
    })
}

/// "The listed executions, counted": of a broadcast once for every slave, of an addressed
/// command once for each whose ID, its place in the chain, it names. Far slave first.
pub fn executions(slaves: usize, entries: &[Entry]) -> Vec<u32> {
    let of = |slave: usize, code: usize| {
        let is_for = |ids: u8| ids == 0 || (slave < 8 && ids.reverse_bits() >> slave & 1 == 1);
        let counts =
            |e: &&Entry| e.kind == Kind::Executed && usize::from(e.id) == code && is_for(e.value);
        entries.iter().filter(counts).count() as u32
    };
    (0..slaves).flat_map(|slave| (0..CODES).map(move |code| of(slave, code))).collect()
}
