//! Frames of a master, from S on: built, with S repeated as often as the slave waits
//! or not, and spoiled. Many choose a bank or cross the border to the bank register.

use super::chains::{bank_number, Chain};
use super::commands::command;
use super::random::Random;
use model::frame::BANK_REGISTER;
use model::rows::{MOST_COLUMNS, ZEROS_TO_REST};
use model::Outcome::{self, Made};
use model::{build_read, build_write};
use std::ops::Range;

const BYTE_COLUMNS: usize = 14;
/// Columns of a frame, counted from S.
const R: usize = 16;
const W: usize = 17;
const FIRST_BYTE: usize = 18;
/// With more repeats a frame has few bytes, so that it stays short.
const FEW_REPEATS: u8 = 20;

/// How often a master repeats S at the bytes that wait, against the waiting number of
/// the slave that it addresses: the same at all of them, or at one of them otherwise.
#[derive(Clone, Copy, PartialEq, Eq, PartialOrd, Ord, Debug)]
pub enum Repeats {
    Exactly,
    TooLittle,
    TooMuch,
    OnceTooLittle,
    OnceTooMuch,
}

/// A frame's columns from S on, and what is known of it.
pub struct Frame {
    pub bits: Vec<u8>,
    bytes: usize,
    writing: bool,
    /// How often it was built to repeat S.
    wait: usize,
    /// None where no byte waits, and once more is changed than the repeats.
    pub repeats: Option<Repeats>,
    /// The ID whose bank it chooses, unless it is spoiled.
    pub chooses: Option<u8>,
}

/// A frame for the slaves of a chain; behind one that chooses a bank of an ID it is
/// mostly an access to that bank.
pub fn frame(random: &mut Random, chain: &Chain, chosen: Option<u8>) -> Frame {
    let mut frame = match chosen {
        Some(id) if !random.one_in(4) => {
            let address = random.below(64);
            register_access(random, chain, id.into(), address)
        }
        _ if random.one_in(5) => command(random, chain),
        _ => any_access(random, chain),
    };
    if random.one_in(4) {
        frame.repeat_otherwise(random);
    }
    if random.one_in(6) {
        frame.overrun(random);
    }
    for _ in 0..random.pick(&[0, 0, 0, 0, 1, 1, 1, 2]) {
        frame.spoil(random);
    }
    frame
}

fn any_access(random: &mut Random, chain: &Chain) -> Frame {
    let ids = random.pick(&[1, 1, 2, 8, 8]);
    let id = random.below(ids);
    let address = match random.below(16) {
        0 | 1 => random.between(124, 127),
        2 => random.between(100, 127),
        3 => random.between(60, 63),
        4..=7 => BANK_REGISTER.into(),
        8 => random.below(128),
        _ => random.below(64),
    };
    register_access(random, chain, id, address)
}

fn register_access(random: &mut Random, chain: &Chain, id: usize, address: usize) -> Frame {
    let (wait, repeats) = repeats(random, chain.waits.get(id).copied().unwrap_or(0));
    let count = byte_count(random, wait).min(128 - address);
    let frame = access(random, chain.banks_of(id), id as u8, address as u8, count, wait);
    Frame { repeats: frame.repeats.map(|_| repeats), ..frame }
}

/// A read or a write, built to repeat S so often, of a slave with so many banks: what it
/// writes to the bank register is mostly the number of one.
pub fn access(
    random: &mut Random,
    banks: u8,
    id: u8,
    address: u8,
    count: usize,
    wait: u8,
) -> Frame {
    let is_at_register = address == BANK_REGISTER;
    let writing = random.one_in(2) || (is_at_register && random.one_in(2));
    if !writing {
        return Frame::built(count, false, wait, |row| build_read(id, address, count, wait, row));
    }
    let mut bytes = random.bytes(count);
    let chosen = BANK_REGISTER.checked_sub(address);
    if let Some(byte) = chosen.and_then(|nth| bytes.get_mut(usize::from(nth))) {
        *byte = bank_number(random, banks);
    }
    let frame = Frame::built(count, true, wait, |row| build_write(id, address, &bytes, wait, row));
    Frame { chooses: is_at_register.then_some(id), ..frame }
}

/// How often S is repeated for a slave that waits so long.
fn repeats(random: &mut Random, wait: u8) -> (u8, Repeats) {
    match random.below(8) {
        0 | 1 if wait > 0 => {
            let fewer = random.below(usize::from(wait)) as u8;
            (random.pick(&[0, wait - 1, fewer]), Repeats::TooLittle)
        }
        2 if wait < u8::MAX => {
            let more = random.pick(&[1, 1, 2, 3, 12, 13, 14, 15]);
            (wait.saturating_add(more), Repeats::TooMuch)
        }
        _ => (wait, Repeats::Exactly),
    }
}

fn byte_count(random: &mut Random, wait: u8) -> usize {
    match random.below(100) {
        _ if wait > FEW_REPEATS => random.between(1, 2),
        0 => random.between(20, 64),
        1..=6 => random.between(5, 20),
        7..=50 => random.between(2, 5),
        _ => 1,
    }
}

impl Frame {
    pub fn built(
        bytes: usize,
        writing: bool,
        wait: u8,
        build: impl Fn(&mut [u8]) -> Outcome,
    ) -> Frame {
        let mut row = vec![0; MOST_COLUMNS];
        let Made(columns) = build(&mut row) else {
            unreachable!("the arguments are within the limits")
        };
        let bits = row[ZEROS_TO_REST..columns].to_vec();
        let wait = usize::from(wait);
        let mut frame = Frame { bits, bytes, writing, wait, repeats: None, chooses: None };
        frame.repeats = (!frame.waits_at().is_empty()).then_some(Repeats::Exactly);
        frame
    }

    /// The columns from the S of a byte to that of the next.
    fn stride(&self) -> usize {
        BYTE_COLUMNS + self.wait
    }

    /// The column of the first S of every byte that waits.
    fn waits_at(&self) -> Vec<usize> {
        if self.writing {
            let first = FIRST_BYTE + BYTE_COLUMNS;
            return (1..self.bytes).map(|n| first + self.stride() * (n - 1)).collect();
        }
        (0..self.bytes).map(|n| FIRST_BYTE + self.stride() * n).collect()
    }

    /// Repeats S more or less often at one byte that waits.
    fn repeat_otherwise(&mut self, random: &mut Random) {
        if self.repeats != Some(Repeats::Exactly) {
            return;
        }
        let at = random.pick(&self.waits_at());
        if random.one_in(2) {
            let fewer = random.between(1, self.wait + 1);
            self.bits.drain(at..at + random.pick(&[1, fewer]));
            self.repeats = Some(Repeats::OnceTooLittle);
        } else {
            let more = vec![1; random.pick(&[1, 1, 2, 13, 14, 15])];
            self.bits.splice(at..at, more);
            self.repeats = Some(Repeats::OnceTooMuch);
        }
    }

    /// Goes on with bytes that the request had not, and that wait as its own do.
    pub fn overrun(&mut self, random: &mut Random) {
        let more = random.between(1, 3);
        let wait = self.wait as u8;
        let bytes = random.bytes(more + 1);
        let longer = Frame::built(more + 1, true, wait, |row| build_write(0, 0, &bytes, wait, row));
        self.bits.extend_from_slice(&longer.bits[FIRST_BYTE + BYTE_COLUMNS..]);
        self.repeats = None;
    }

    fn spoil(&mut self, random: &mut Random) {
        self.repeats = None;
        if self.bits.is_empty() {
            return;
        }
        let length = self.bits.len();
        let place = random.below(length);
        match random.below(10) {
            0 => self.flip(random),
            1 => self.bits.truncate(place),
            2 => {
                let end = (place + random.between(1, 20)).min(length);
                self.bits.drain(place..end);
            }
            3 => {
                let zeros = vec![0; random.between(12, 16)];
                self.bits.splice(place..place, zeros);
            }
            4 => {
                let end = (place + random.between(12, 16)).min(length);
                self.bits[place..end].fill(0);
            }
            5 => self.bits.insert(place, random.bit()),
            6 if length > W => self.bits[W] = self.bits[R],
            7 => self.set_in_bytes(random, 1..BYTE_COLUMNS),
            8 => self.set_in_bytes(random, BYTE_COLUMNS - 1..BYTE_COLUMNS),
            _ => self.set_in_bytes(random, 0..1),
        }
    }

    fn flip(&mut self, random: &mut Random) {
        for _ in 0..random.between(1, 3) {
            let place = random.below(self.bits.len());
            self.bits[place] ^= 1;
        }
    }

    /// Gives random bits to these columns of each byte, counted from its last S: the
    /// don't-care bits of a read, the data of a write, P, or S.
    fn set_in_bytes(&mut self, random: &mut Random, columns: Range<usize>) {
        let first = FIRST_BYTE + if self.writing { 0 } else { self.wait };
        let stride = self.stride();
        let bytes = self.bits.get_mut(first..).unwrap_or_default();
        for byte in bytes.chunks_mut(stride) {
            for (column, bit) in byte.iter_mut().enumerate() {
                if columns.contains(&column) {
                    *bit = random.bit();
                }
            }
        }
    }
}
