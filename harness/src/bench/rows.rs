//! The rows that are timed, their answers, texts and lists.

use crate::generate::Random;
use model::entry::ENTRY_BYTES;
use model::frame::{registers_of, BANK_BYTES, BANK_REGISTER};
use model::table::Stretch;
use model::Outcome::Made;
use model::{build_command, build_read, build_write};

pub const LENGTHS: [usize; 2] = [46, 4096];
/// Varied rows are run in turn, too many for branch prediction to learn them.
pub const VARIED_ROWS: usize = 64;
const SEED: u64 = 1;

/// The waiting number of the rows that are named for waits.
pub const WAIT: u8 = 3;
/// The banks of the slaves of rows that are named for banks.
pub const BANKS: u8 = 8;

/// What the frames of varied rows are.
#[derive(Clone, Copy, PartialEq, Eq)]
enum Frames {
    Accesses,
    /// Every other one a command that is executed.
    WithCommands,
}

/// Rows of one name, which are run in turn, and what slaves they are built for.
pub struct Rows {
    pub name: &'static str,
    pub banks: u8,
    pub wait: u8,
    pub rows: Vec<Vec<u8>>,
}

/// All rows; the varied ones are for so many slaves, one slave waits too.
pub fn timed(slaves: usize) -> Vec<Rows> {
    let named = |name, banks, wait, rows| Rows { name, banks, wait, rows };
    let mut all = Vec::new();
    for columns in LENGTHS {
        all.push(named("dense", 1, 0, vec![dense(columns)]));
        all.push(named("idle", 1, 0, vec![vec![0; columns]]));
    }
    all.push(named("varied", 1, 0, varied(slaves, 1, 0, Frames::Accesses)));
    all.push(named("banks", BANKS, 0, varied(slaves, BANKS, 0, Frames::Accesses)));
    if slaves == 1 {
        all.push(named("waits", 1, WAIT, varied(slaves, 1, WAIT, Frames::Accesses)));
    }
    all.push(named("commands", 1, 0, varied(slaves, 1, 0, Frames::WithCommands)));
    all
}

/// Frames without a gap but their own fourteen zeros, reads and writes in turn.
pub fn dense(columns: usize) -> Vec<u8> {
    let mut row = Vec::new();
    let mut frame = [0; 46];
    for n in 0u8.. {
        if row.len() >= columns {
            break;
        }
        if n % 2 == 0 {
            build_read(0, n & 127, 1, 0, &mut frame);
        } else {
            build_write(0, n & 127, &[n.wrapping_mul(37)], 0, &mut frame);
        }
        row.extend_from_slice(&frame);
    }
    row.truncate(columns);
    row
}

/// Reads and writes of one to eight random bytes at random places of these
/// slaves, which all have so many banks and wait so long, 14 to 60 zeros before each.
/// Where there are several banks, every other frame chooses one; where there are commands,
/// every other frame is one, to all or to any.
fn varied_row(random: &mut Random, slaves: usize, banks: u8, wait: u8, frames: Frames) -> Vec<u8> {
    let mut row = Vec::new();
    let mut frame = [0; 32 + (14 + WAIT as usize) * 8];
    while row.len() < 4096 {
        let id = random.below(slaves.min(8)) as u8;
        let count = random.between(1, 8);
        let address = random.below(129 - count) as u8;
        let made = if frames == Frames::WithCommands && random.one_in(2) {
            let any = random.next() as u8;
            build_command(random.pick(&[0, any]), random.below(4) as u8, true, &mut frame)
        } else if banks > 1 && random.one_in(2) {
            build_write(id, BANK_REGISTER, &[random.below(banks.into()) as u8], wait, &mut frame)
        } else if random.one_in(2) {
            build_read(id, address, count, wait, &mut frame)
        } else {
            build_write(id, address, &random.bytes(count), wait, &mut frame)
        };
        let Made(length) = made else { unreachable!() };
        row.resize(row.len() + random.below(47), 0);
        row.extend_from_slice(&frame[..length]);
    }
    row.truncate(4096);
    row
}

fn varied(slaves: usize, banks: u8, wait: u8, frames: Frames) -> Vec<Vec<u8>> {
    let mut random = Random::from_seed(SEED);
    (0..VARIED_ROWS).map(|_| varied_row(&mut random, slaves, banks, wait, frames)).collect()
}

/// How many stretches of a recording are read in one call.
pub const STRETCHES: usize = 1000;

/// The varied rows of one slave joined to one recording.
pub fn varied_recording() -> [Vec<u8>; 2] {
    let all = Rows { name: "varied", banks: 1, wait: 0, rows: varied(1, 1, 0, Frames::Accesses) };
    let answers: Vec<Vec<u8>> = all.rows.iter().map(|cdm| all.answered(cdm)).collect();
    [all.rows.concat(), answers.concat()]
}

/// Stretches of some hundred columns anywhere in so many.
pub fn stretches(columns: usize) -> Vec<Stretch> {
    let mut random = Random::from_seed(SEED);
    let mut stretch = || {
        let length = random.between(100, 500);
        [random.below(columns - length), length, 0]
    };
    (0..STRETCHES).map(|_| stretch()).collect()
}

impl Rows {
    /// The columns of all rows together.
    pub fn columns(&self) -> usize {
        self.rows.iter().map(Vec::len).sum()
    }

    /// What one such slave answers to a master row, its first bank chosen.
    pub fn answered(&self, cdm: &[u8]) -> Vec<u8> {
        let mut registers = Random::from_seed(SEED).bytes(registers_of(self.banks));
        registers[BANK_BYTES * usize::from(self.banks)] = 0;
        let rights = vec![3; registers.len()];
        let (banks, waits, counts) = ([self.banks], [self.wait], &mut [0; 4]);
        let mut cds = vec![0; cdm.len()];
        model::run(1, &banks, &rights, &waits, &mut registers, counts, cdm, &mut cds);
        cds
    }

    /// The list of a master row and its answers.
    pub fn listed(&self, cdm: &[u8]) -> Vec<u8> {
        let mut list = vec![0; ENTRY_BYTES * cdm.len()];
        let Made(entries) = model::read(cdm, &self.answered(cdm), 0, &mut list) else {
            unreachable!()
        };
        list.truncate(ENTRY_BYTES * entries);
        list
    }
}

/// Two rows as text.
pub fn text(cdm: &[u8], cds: &[u8]) -> Vec<u8> {
    let mut text = vec![0; 8 + 4 * cdm.len()];
    model::rows_to_text(cdm, cds, &mut text);
    text
}
