//! A preset is sent to two encoders by command: CMD 2 for the IDs 0, 1 and 2, of which the chain has no ID 2. Both acknowledge it and
//! execute it. Then CMD 2 for ID 1 is acknowledged and withheld, and of a last one for ID 0 only the header is sent. What was recorded is
//! read back as a list and printed, and the counts that the chain keeps: the list counts the same. One call is refused. Every answer is
//! asserted.

#[path = "../include/biss.rs"]
#[allow(dead_code)]
mod biss;
mod print_list;
use biss::{Entry, Refusal, CMDS, COMMAND_HEADER, ENTRY_BYTES, REST};
use print_list::print_list;

const SLAVES: usize = 2;
const REGISTERS: usize = 128 * SLAVES;
const PRESET: u8 = 2;
const COMMAND: usize = 39;
const COLUMNS: usize = 2 * COMMAND + COMMAND_HEADER + REST;

/// IDS has ID 0 as its highest bit.
fn named(id: usize) -> u8 {
    0x80 >> id
}

/// The three commands, and the zeros that end the last one.
fn build_commands() -> [u8; COLUMNS] {
    let (mut cdm, mut last) = ([0; COLUMNS], [0; COMMAND]);
    let three = named(0) | named(1) | named(2);
    assert_eq!(biss::build_command(three, PRESET, true, &mut cdm), Ok(COMMAND));
    assert_eq!(biss::build_command(named(1), PRESET, false, &mut cdm[COMMAND..]), Ok(COMMAND));
    assert_eq!(biss::build_command(named(0), PRESET, true, &mut last), Ok(COMMAND));
    cdm[2 * COMMAND..][..COMMAND_HEADER].copy_from_slice(&last[..COMMAND_HEADER]);
    assert_eq!(biss::build_command(0, PRESET, true, &mut last), Ok(32));
    cdm
}

/// Counts the executions of a list for each slave: a broadcast for all, an addressed command for those that it names.
fn count_listed(entries: &[Entry]) -> Vec<u32> {
    let mut counts = vec![0; CMDS * SLAVES];
    for entry in entries.iter().filter(|entry| entry.kind == 17) {
        let is_for = |id: &usize| entry.value == 0 || entry.value & named(*id) != 0;
        (0..SLAVES).filter(is_for).for_each(|id| counts[CMDS * id + usize::from(entry.id)] += 1);
    }
    counts
}

fn main() {
    let cdm = build_commands();
    let (banks, waits, rights) = ([1; SLAVES], [0; SLAVES], [3; REGISTERS]);
    let (mut registers, mut counts, mut cds) = ([0; REGISTERS], [7; CMDS * SLAVES], [0; COLUMNS]);
    let answer =
        biss::run(SLAVES, &banks, &rights, &waits, &mut registers, &mut counts, &cdm, &mut cds);
    assert_eq!(answer, Ok(COLUMNS));
    assert_eq!(cds[30..33], [1, 1, 0]);

    let mut list = [0; 11 * ENTRY_BYTES];
    assert_eq!(biss::read(&cdm, &cds, 0, &mut list), Ok(11));
    let entries: Vec<Entry> = biss::entries(&list).collect();
    let [executed, withheld] = [entries[2], entries[6]];
    assert_eq!((executed.kind, executed.id, executed.value), (17, PRESET, 0xE0));
    assert_eq!((withheld.kind, withheld.id, withheld.value), (18, PRESET, 0x40));
    assert_eq!(count_listed(&entries), counts);
    print_list(&list);
    for (id, of) in counts.chunks(CMDS).enumerate() {
        println!("ID {id} executed CMD 0 to 3: {} {} {} {}", of[0], of[1], of[2], of[3]);
    }

    let refused = biss::run(
        SLAVES,
        &banks,
        &rights,
        &waits,
        &mut registers,
        &mut counts[1..],
        &cdm,
        &mut cds,
    );
    assert_eq!(refused, Err(Refusal::Number(21)));
    assert_eq!(Refusal::Number(21).to_string(), "counts not four per slave");
    assert_eq!(counts, [0, 0, 1, 0, 0, 0, 1, 0]);
    println!("seven counts for two slaves: refusal 21");
}
