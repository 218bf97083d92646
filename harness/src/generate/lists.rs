//! The bytes of lists, whole and spoiled.

use super::random::Random;
use super::recordings::recording;
use super::Marks;
use model::entry::{COLUMN, ENTRY_BYTES, ID, KIND, START};
use model::list::list;

/// What a spoiled list is marked with.
pub const LIST_SPOILS: [&str; 4] = ["ragged", "kind 0", "kind 21", "kind over 21"];

/// The bytes of a list: one that was read, or kinds with any fields, at times
/// many.
pub fn list_bytes(random: &mut Random) -> Vec<u8> {
    if random.one_in(4) {
        let rows = recording(random);
        return list(&rows.cdm, &rows.cds, 0).iter().flat_map(|entry| entry.bytes()).collect();
    }
    let entries = if random.one_in(8) { random.between(100, 700) } else { random.below(30) };
    (0..entries).flat_map(|_| entry(random)).collect()
}

/// An entry of any kind with any fields, often numbers where a digit is gained.
fn entry(random: &mut Random) -> Vec<u8> {
    let mut entry = random.bytes(ENTRY_BYTES);
    if random.one_in(3) {
        let columns = [0u16, 9, 10, 99, 100, 999, 1000, 4095, 9999, 10000, u16::MAX];
        entry[COLUMN].copy_from_slice(&random.pick(&columns).to_be_bytes());
        entry[START].copy_from_slice(&random.pick(&columns).to_be_bytes());
        entry[ID..].fill_with(|| random.pick(&[0, 1, 9, 10, 63, 64, 99, 100, 199, 255]));
    }
    entry[KIND] = random.between(1, 20) as u8;
    entry
}

/// Gives a list a length or a kind that it must not have, or both.
pub fn spoil_list(random: &mut Random, list: &mut Vec<u8>) -> Marks {
    let mut marks = Marks::new();
    let entries = list.len() / ENTRY_BYTES;
    if entries > 0 && !random.one_in(3) {
        let any = random.below(entries);
        let place = random.pick(&[0, entries - 1, any]);
        let spoil = random.between(1, 3);
        let over = random.between(22, 255) as u8;
        list[ENTRY_BYTES * place + KIND] = [0, 21, over][spoil - 1];
        marks.push(LIST_SPOILS[spoil]);
    }
    if marks.is_empty() || random.one_in(4) {
        let length = list.len() + random.between(1, ENTRY_BYTES - 1);
        let kind = random.between(0, 24) as u8;
        list.resize(length, kind);
        marks.push("ragged");
    }
    marks
}
