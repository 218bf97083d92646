//! The program `card`: the bench card's check bits, and one byte divided by hand, which
//! the page `docs/CHECK.md` shows too, each line beside the line of code that does it.

use crate::selftest::{ACCESSES, BROADCASTS, BYTES};
use model::check::{check_bits, BYTE_BITS};
use std::fs;
use std::path::Path;

/// The byte that is divided.
const DIVIDED: u16 = 0x5A;
const PAGE: &str = "docs/CHECK.md";
const CODE: &str = "crates/checkbits/src/lib.rt";
/// Where the code stands on a line of the page, behind a step and blanks.
const CODE_COLUMN: usize = 23;

/// What the program prints: the checks that the card gives, and the division.
pub fn printed() -> Vec<u8> {
    let bytes = BYTES.map(|(byte, check)| format!("byte {byte:02x}: {check:x}"));
    let accesses =
        ACCESSES.map(|(id, address, check)| format!("ID {id} address {address:02x}: {check:x}"));
    let broadcasts = BROADCASTS.map(|(cmd, check)| format!("broadcast CMD {cmd}: {check:x}"));
    let card = bytes.into_iter().chain(accesses).chain(broadcasts);
    card.chain(division(DIVIDED)).map(|line| line + "\n").collect::<String>().into_bytes()
}

/// A byte divided by 10011 on paper. With every bit the remainder goes one place up and
/// the bit is added to the leading place; where a 1 then stands there, 10011 is taken
/// away.
fn division(byte: u16) -> Vec<String> {
    let mut remainder = 0;
    let mut lines = vec![format!("start value    {remainder:04b}")];
    for place in (0..BYTE_BITS).rev() {
        let bit = byte >> place & 1;
        let raised = remainder << 1 ^ bit << 4;
        let (done, left) =
            if raised < 0b10000 { ("stays", raised) } else { ("less 10011", raised ^ 0b10011) };
        remainder = left;
        // The bits so far, divided as the model does it, give the same.
        assert_eq!(remainder ^ 0b1111, u16::from(check_bits(byte >> place, BYTE_BITS)));
        lines.push(format!("bit           {bit}"));
        lines.push(format!("raised        {raised:05b}"));
        lines.push(format!("{done:<15}{remainder:04b}"));
    }
    lines.push(format!("remainder      {remainder:04b}"));
    lines.push(format!("inverted       {:04b}", remainder ^ 0b1111));
    lines
}

/// Whether the page shows the division, line for line and nothing else, and beside each
/// line one of the code's.
pub fn page_agrees(root: &Path) -> bool {
    let read = |name| fs::read_to_string(root.join(name)).expect("the file is there");
    let (page, code) = (read(PAGE), read(CODE));
    let shown: Vec<_> = page.lines().filter_map(|line| line.strip_prefix("    ")).collect();
    let wanted = division(DIVIDED);
    let is_coded = |right: &str| code.lines().any(|line| line.trim() == right);
    let is_right = |line: &str, step: &str| {
        let halves = line.split_at_checked(CODE_COLUMN);
        halves.is_some_and(|(left, right)| left.trim_end() == step && is_coded(right))
    };
    let wrong: Vec<_> =
        shown.iter().zip(&wanted).filter(|(line, step)| !is_right(line, step)).collect();
    for (line, step) in &wrong {
        println!("PAGE {PAGE} has `{line}`, not `{step}` with a line of {CODE}");
    }
    println!("{PAGE}: {} lines of {}, {} wrong", shown.len(), wanted.len(), wrong.len());
    shown.len() == wanted.len() && wrong.is_empty()
}
