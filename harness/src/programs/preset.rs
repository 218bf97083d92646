//! A preset sent to encoders by command: the recording that `examples/` holds, and what the
//! example `preset` prints.

use super::inputs::{input, text_of_slaves, Input};
use model::index;
use model::{build_command, run, Outcome::Made};

/// Addressed CMD 2, "e.g. sensor presets" (000), for both of two slaves, EX = 1.
pub fn recording() -> Input {
    let mut row = vec![0; 39 + 14];
    assert_eq!(build_command(0xC0, 2, true, &mut row), Made(39));
    let text = text_of_slaves(&[1, 1], &[0, 0], &mut [0; 256], &row);
    let input = input("a preset", None, text);
    let wanted = [
        "event\tcolumn\tstart\tid\taddress\tbank\tvalue",
        "lock\t23\t14\t-\t-\t-\t2",
        "command\t29\t14\t2\t-\t-\t192",
        "executed\t38\t14\t2\t-\t-\t192",
        "end\t52\t14\t-\t-\t-\t-\n",
    ];
    assert_eq!(input.report(), wanted.join("\n").as_bytes());
    input
}

/// The example's row: CMD 2 for the IDs 0, 1 and 2 of a chain of two, executed; for ID 1,
/// withheld; and the header alone of a third, behind which the line comes to rest.
fn example_row() -> Vec<u8> {
    let mut row = vec![0; 39 + 39 + 30 + 14];
    assert_eq!(build_command(0xE0, 2, true, &mut row), Made(39));
    assert_eq!(build_command(0x40, 2, false, &mut row[39..]), Made(39));
    let mut whole = [0; 39];
    assert_eq!(build_command(0x80, 2, true, &mut whole), Made(39));
    row[78..108].copy_from_slice(&whole[..30]);
    row
}

/// What the example prints: the list, and the counts of both slaves.
pub fn printed() -> Vec<u8> {
    let cdm = example_row();
    let (mut counts, mut cds) = ([7; 8], vec![0; cdm.len()]);
    let rights = [3; 256];
    let made = run(2, &[1, 1], &rights, &[0, 0], &mut [0; 256], &mut counts, &cdm, &mut cds);
    assert_eq!(made, Made(cdm.len()));
    let mut printed = index(&text_of_slaves(&[1, 1], &[0, 0], &mut [0; 256], &cdm), 0);
    for (id, counts) in counts.chunks(4).enumerate() {
        let [a, b, c, d] = counts else { unreachable!("four counts a slave") };
        printed.extend(format!("ID {id} executed CMD 0 to 3: {a} {b} {c} {d}\n").bytes());
    }
    printed.extend(b"seven counts for two slaves: refusal 21\n");
    printed
}
