//! Master rows: frames, joined and cut, and rows without sense.

use super::chains::Chain;
use super::commands::{built, command, cut, ids};
use super::frames::{access, frame, Frame, Repeats};
use super::random::Random;
use model::rows::MOST_COLUMNS;

/// A master row, and what is known of its frames.
#[derive(Default)]
pub struct MasterRow {
    pub cdm: Vec<u8>,
    pub known: Vec<Known>,
}

/// Columns of a frame, from S on, of which it is known how often they repeat S.
#[derive(Clone, Copy)]
pub struct Known {
    pub start: usize,
    pub end: usize,
    pub repeats: Repeats,
}

impl MasterRow {
    fn push(&mut self, frame: &Frame) {
        let start = self.cdm.len();
        self.cdm.extend_from_slice(&frame.bits);
        let end = self.cdm.len();
        self.known.extend(frame.repeats.map(|repeats| Known { start, end, repeats }));
    }

    fn push_zeros(&mut self, zeros: usize) {
        self.cdm.resize(self.cdm.len() + zeros, 0);
    }
}

/// A master row of at most 4,096 columns for the slaves of a chain.
pub fn master_row(random: &mut Random, chain: &Chain) -> MasterRow {
    let target = length(random);
    let ones = random.pick(&[1, 2, 8, 15, 16]);
    let mut row = match random.below(24) {
        0 => MasterRow { cdm: random.bits(target, ones), ..MasterRow::default() },
        1 => MasterRow { cdm: vec![0; target], ..MasterRow::default() },
        2 if random.one_in(4) => one_command(random, chain),
        2..=3 => joined_frames(random, target, chain, true),
        _ => joined_frames(random, target, chain, false),
    };
    if random.one_in(2) {
        row.cdm.truncate(target);
    }
    row.cdm.truncate(MOST_COLUMNS);
    row
}

/// A row of more than 4,096 columns.
pub fn long_row(random: &mut Random) -> Vec<u8> {
    let extra = random.pick(&[1, 1, 1, 2, 100]);
    let mut row = joined_frames(random, 200, &Chain::default(), false).cdm;
    row.resize(MOST_COLUMNS + extra, 0);
    row
}

/// A row with an access to ID 0, which waits so long and has so many banks, that goes up
/// to the 64th byte and often beyond. One bank ends in front of the bank register.
pub fn long_access(random: &mut Random, wait: u8, banks: u8) -> MasterRow {
    let any = random.below(65);
    let address = if banks == 1 { random.pick(&[any, 0, 64]) } else { any };
    let count = random.pick(&[63, 64, 64, 64]);
    let mut frame = access(random, banks, 0, address as u8, count, wait);
    if random.one_in(2) {
        frame.overrun(random);
    }
    let mut row = MasterRow::default();
    row.push_zeros(random.between(14, 18));
    row.push(&frame);
    row.push_zeros(random.between(0, 20));
    row.cdm.truncate(MOST_COLUMNS);
    row
}

fn length(random: &mut Random) -> usize {
    match random.below(64) {
        0 => MOST_COLUMNS,
        1 => random.between(1000, MOST_COLUMNS),
        2..=7 => random.between(0, 50),
        8..=32 => random.between(0, 300),
        _ => random.between(0, 800),
    }
}

/// A row full of one command, so often as it has columns for.
fn one_command(random: &mut Random, chain: &Chain) -> MasterRow {
    let any = ids(random, chain.slaves);
    let ids = random.pick(&[0, any]);
    let frame = built(random, ids);
    let mut row = MasterRow::default();
    while row.cdm.len() < MOST_COLUMNS {
        row.push_zeros(14);
        row.push(&frame);
    }
    row
}

/// Frames one after the other, mostly commands or mostly accesses; the last one may be a
/// command that is cut.
fn joined_frames(
    random: &mut Random,
    target: usize,
    chain: &Chain,
    is_of_commands: bool,
) -> MasterRow {
    let mut row = MasterRow::default();
    if random.one_in(8) {
        let columns = random.between(0, 20);
        row.cdm = random.bits(columns, 8);
    }
    let mut chosen = None;
    while row.cdm.len() < target {
        row.push_zeros(
            random.pick(&[0, 1, 5, 12, 13, 13, 14, 14, 14, 14, 14, 14, 14, 15, 15, 16, 28, 40]),
        );
        let is_command = is_of_commands && !random.one_in(4);
        let frame = if is_command { command(random, chain) } else { frame(random, chain, chosen) };
        chosen = frame.chooses;
        row.push(&frame);
    }
    if random.one_in(if is_of_commands { 2 } else { 10 }) {
        row.push_zeros(14);
        let mut last = command(random, chain);
        cut(random, &mut last);
        row.push(&last);
    } else if random.one_in(2) {
        row.push_zeros(random.between(0, 16));
    }
    row
}
