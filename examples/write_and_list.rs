//! A master chooses bank 3 of the only slave of a chain, which has four, and then writes 5B to address 10 (both hexadecimal) of that bank.
//! What was recorded is read back as a list and printed; opened late, at the frame of that write, it no longer tells the bank. The rows
//! are carried to text and back. One text and three calls are refused. Then channel places in a chain of three. Every answer is asserted.

#[path = "../include/biss.rs"]
#[allow(dead_code)]
mod biss;
mod print_list;
use biss::{ChannelPlace, Entry, Refusal, BANK_REGISTER, CMDS, ENTRY_BYTES, NO_BANK_YET, REST};
use print_list::print_list;

/// The slave's banks, one after the other, and then its fixed registers.
const BANKS: usize = 4;
const REGISTERS: usize = 64 * (BANKS + 1);

fn main() {
    let mut row = [0; 4096];
    let choice =
        biss::build_write(0, BANK_REGISTER, &[3], 0, &mut row).expect("the choice is built");
    let behind = &mut row[choice..];
    let columns =
        choice + biss::build_write(0, 0x10, &[0x5B], 0, behind).expect("the write is built");
    let cdm = &row[..columns];
    let (mut cds, mut registers, mut rights) = (vec![0; columns], [0; REGISTERS], [3; REGISTERS]);
    let (banks, mut counts) = ([BANKS as u8], [7; CMDS]);
    let answer = biss::run(1, &banks, &rights, &[0], &mut registers, &mut counts, cdm, &mut cds);
    assert_eq!((answer, counts), (Ok(columns), [0; CMDS]));
    assert_eq!((registers[64 * 3 + 0x10], registers[64 * BANKS]), (0x5B, 3));

    let mut list = [0; 5 * ENTRY_BYTES];
    assert_eq!(biss::read(cdm, &cds, 0, &mut list), Ok(5));
    let written = biss::entries(&list).last().expect("five entries");
    let Entry { kind, address, bank, value, .. } = written;
    assert_eq!((kind, address, bank, value), (11, 0x10, 3, 0x5B));
    print_list(&list);
    let (mut late, opening) = ([0; 2 * ENTRY_BYTES], written.start - REST);
    assert_eq!(biss::read(cdm, &cds, opening, &mut late), Ok(2));
    let again = Entry { bank: NO_BANK_YET, ..written };
    assert_eq!(biss::entries(&late).last(), Some(again));
    let column = written.column;
    println!(
        "written in column {column}; opened again at {opening}, behind the choice of the bank:"
    );
    print_list(&late);
    assert_eq!(biss::read(cdm, &cds, opening + 1, &mut late), Ok(0));

    let mut text = vec![0; 8 + 4 * columns];
    assert_eq!(biss::rows_to_text(cdm, &cds, &mut text), Ok(text.len()));
    let (mut cdm_back, mut cds_back) = (vec![7; columns], vec![7; columns]);
    let last_digit = text.len() - 2;
    text[last_digit] = b'2';
    let refusal =
        biss::text_to_rows(&text, &mut cdm_back, &mut cds_back).expect_err("a 2 is no bit");
    assert_eq!(refusal, Refusal::InText { number: 14, line: columns + 1, byte: 2 });
    assert_eq!(refusal.to_string(), "line 93, byte 2: digit not 0 or 1");
    println!("a text with a 2: refusal {}, line {}, byte 2", refusal.number(), columns + 1);
    text[last_digit] = b'0' + cds[columns - 1];
    assert_eq!(biss::text_to_rows(&text, &mut cdm_back, &mut cds_back), Ok(columns));
    assert_eq!((cdm, &cds), (&cdm_back[..], &cds_back));

    let mut refused = |banks: &[u8], rights: &[u8]| {
        let (registers, counts, cds) = (&mut registers, &mut [0; CMDS], &mut cds);
        biss::run(1, banks, rights, &[0, 0], registers, counts, cdm, cds)
    };
    assert_eq!(refused(&banks, &rights), Err(Refusal::Number(18)));
    println!("two waits for one slave: refusal 18");
    rights[REGISTERS - 1] = 4;
    assert_eq!(refused(&banks, &rights), Err(Refusal::Number(4)));
    println!("a right above 3: refusal 4");
    assert_eq!(refused(&[9], &rights), Err(Refusal::Number(19)));
    println!("nine banks: refusal 19");

    assert_eq!(biss::channel_of(0, 3), Ok(Some(ChannelPlace(3))));
    assert_eq!(biss::channel_of(3, 3), Ok(None));
    assert_eq!(biss::channel_of(8, 3), Err(Refusal::Number(10)));
}
