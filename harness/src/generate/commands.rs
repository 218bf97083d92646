//! Commands: their frames, for slaves that are there and for others, and answers to them
//! that nobody gave.

use super::chains::Chain;
use super::frames::Frame;
use super::random::Random;
use model::build_command;
use model::entry::Kind;
use model::list::list;

/// Columns of a frame, counted from S: the command's S, and EX of an addressed one.
const COMMAND_START: usize = 16;
const EX_ADDRESSED: usize = 24;

/// A command to slaves of a chain, or to none of them; any bits may stand between S and
/// EX.
pub fn command(random: &mut Random, chain: &Chain) -> Frame {
    let ids = ids(random, chain.slaves);
    let mut frame = built(random, ids);
    if ids != 0 && random.one_in(2) {
        let ones = random.pick(&[4, 8, 8, 16]);
        let between = COMMAND_START + 1..EX_ADDRESSED;
        frame.bits[between.clone()].copy_from_slice(&random.bits(between.len(), ones));
    }
    match random.below(16) {
        0 => frame.bits[COMMAND_START] = 0,
        1 => frame.bits.truncate(COMMAND_START),
        2 => cut(random, &mut frame),
        3 | 4 => {
            let columns = random.between(1, 30);
            frame.bits.extend(random.bits(columns, 8));
        }
        _ => {}
    }
    frame
}

/// A command as the builder makes it, of any code, EX 0 or 1.
pub fn built(random: &mut Random, ids: u8) -> Frame {
    let (cmd, execute) = (random.below(4) as u8, !random.one_in(3));
    Frame::built(0, false, 0, |row| build_command(ids, cmd, execute, row))
}

/// Leaves the first columns of a frame, often all but the last.
pub fn cut(random: &mut Random, frame: &mut Frame) {
    let length = frame.bits.len();
    let any = random.between(1, length);
    frame.bits.truncate(random.pick(&[any, any, any, length - 1]));
}

/// Those that IDS names in a chain of so many slaves: nobody, some or all of those that
/// are there, others, one, or any.
pub fn ids(random: &mut Random, slaves: usize) -> u8 {
    let there = !(0xFF_u16 >> slaves.min(8)) as u8;
    let any = random.next() as u8;
    let one = 0x80 >> random.below(8);
    random.pick(&[0, 0, 0, there, any & there, any & there, any & !there, one, any])
}

/// Gives some commands answers that do not fit: one flipped, all silent, all speaking, a
/// column late, of all that are named, without sense; or flips one that nobody judges.
pub fn spoil_acknowledgements(random: &mut Random, cdm: &[u8], cds: &mut [u8]) {
    let one_in = random.pick(&[1, 1, 2, 4]);
    let is_command = |entry: &model::entry::Entry| entry.kind == Kind::Command;
    for command in list(cdm, cds, 0).into_iter().filter(is_command) {
        let first = command.column + 1;
        let Some(answers) = cds.get_mut(first..(first + 9).min(cdm.len())) else { continue };
        if answers.is_empty() || !random.one_in(one_in) {
            continue;
        }
        let (any, last) = (random.below(answers.len()), answers.len() - 1);
        match random.below(9) {
            0..=2 => answers[any] ^= 1,
            3 => answers[last.min(1)] ^= 1,
            4 => answers.fill(0),
            5 => answers.fill(1),
            6 => answers.copy_within(0..last, 1),
            7 => {
                let named = (0..8).map(|id| command.value >> (7 - id) & 1);
                answers.iter_mut().zip(named).for_each(|(answer, bit)| *answer = bit);
            }
            _ => answers.fill_with(|| random.bit()),
        }
    }
}
