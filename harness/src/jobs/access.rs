//! What a built read and a built write are asked for alike.

use crate::bench::rows::WAIT;
use crate::checks::must;
use crate::generate::provoked::{TWO_16, TWO_32};
use crate::generate::{Marks, Provoked, Random};
use model::entry::Kind;
use model::list::list;

/// With so many bytes the rows of a read and of a write can both pass 4,096 columns.
const LEAST_FOR_5: usize = 17;

/// Bytes with which some waiting number gives 4,096 columns, or two or three more.
const AT_LIMIT_READING: &[usize] = &[32, 32, 19, 38];
const AT_LIMIT_WRITING: &[usize] = &[19, 31, 22, 22];

/// What an access is marked with.
pub const MARKS: [&str; 7] =
    ["wait 0", "wait 1", "wait 3", "wait 255", "another wait", "4096 columns", "just past 4096"];

/// What is timed: bytes, waiting number and the name of such rows.
pub const TIMED: [(usize, u8, &str); 3] = [(1, 0, "-"), (64, 0, "-"), (64, WAIT, "waits")];

#[derive(Clone, Copy)]
pub struct Access {
    pub writing: bool,
    pub id: u8,
    pub address: u8,
    pub count: usize,
    pub wait: u8,
}

impl Access {
    /// 10.
    pub fn is_bad(self) -> bool {
        let last = usize::from(self.address).saturating_add(self.count);
        self.id > 7 || self.address > 127 || !(1..=64).contains(&self.count) || last > 128
    }

    /// 5.
    pub fn is_too_long(self) -> bool {
        self.columns() > 4096
    }

    /// Every byte of a read repeats S, of a write every one but the first.
    fn bytes_that_wait(self) -> usize {
        if self.writing {
            self.count.saturating_sub(1)
        } else {
            self.count
        }
    }

    /// Fourteen zeros, a header of sixteen with S, R and W; fourteen a byte; the repeats.
    pub fn columns(self) -> usize {
        let repeats = self.bytes_that_wait().saturating_mul(self.wait.into());
        self.count.saturating_mul(14).saturating_add(repeats).saturating_add(14 + 16 + 2)
    }

    /// The greatest waiting number with which it keeps to 4,096 columns.
    fn greatest_wait(self) -> u8 {
        let keeps = |&wait: &u8| !Access { wait, ..self }.is_too_long();
        (0..=u8::MAX).rfind(keeps).expect("64 bytes that do not wait have 928 columns")
    }

    /// An access with 10 and 5 as asked for.
    pub fn draw(random: &mut Random, provoked: &Provoked, writing: bool) -> Access {
        let least = if provoked.has(5) || random.one_in(4) { LEAST_FOR_5 } else { 1 };
        let within = random.between(least, 64);
        let at_limit = random.pick(if writing { AT_LIMIT_WRITING } else { AT_LIMIT_READING });
        let count = if least == 1 {
            random.pick(&[1, within, 64])
        } else {
            random.pick(&[least, within, 64, at_limit, at_limit])
        };
        let any = random.below(129 - count);
        let address = random.pick(&[any, any, 128 - count]) as u8;
        let mut access = Access { writing, id: random.below(8) as u8, address, count, wait: 0 };
        access.draw_wait(random, provoked.has(5));
        while provoked.has(10) && !access.is_bad() {
            access.spoil(random);
        }
        access
    }

    fn draw_wait(&mut self, random: &mut Random, too_long: bool) {
        let most = self.greatest_wait();
        let within = random.between(0, most.into()) as u8;
        self.wait = random.pick(&[0, 0, 0, 1, 3, within, most, most]);
        if too_long {
            let beyond = random.between(usize::from(most) + 1, 255) as u8;
            self.wait = random.pick(&[most + 1, most + 1, beyond, 255]);
        }
    }

    /// Puts one of its numbers out of bounds.
    fn spoil(&mut self, random: &mut Random) {
        let far = [0, 65, 66, 128, 257, 1000, TWO_16 + 1, TWO_32 + 1, usize::MAX];
        match random.below(4) {
            0 => self.id = random.pick(&[8, 9, 128, 255]),
            1 => self.address = random.pick(&[128, 129, 200, 255]),
            2 => self.count = random.pick(&far),
            _ => self.count = 129usize.saturating_sub(self.address.into()).min(64),
        }
    }

    pub fn mark(self, marks: &mut Marks) {
        let named = [0, 1, 3, 255].into_iter().position(|wait| wait == self.wait);
        marks.push(MARKS[named.unwrap_or(4)]);
        match self.columns() {
            4096 => marks.push("4096 columns"),
            4098 | 4099 => marks.push("just past 4096"),
            _ => {}
        }
    }

    /// A slave that waits as long as the row was built for takes or gives every byte of
    /// it, the last two columns before its end. Each slave has two banks, the first one
    /// chosen: one bank would end at the bank register.
    pub fn check(self, row: &[u8]) -> Result<(), String> {
        let slaves = usize::from(self.id) + 1;
        let mut waits = vec![0; slaves];
        waits[slaves - 1] = self.wait;
        let banks = vec![2; slaves];
        let (rights, mut registers) = (vec![3; 192 * slaves], vec![0; 192 * slaves]);
        let (counts, mut cds) = (&mut vec![0; 4 * slaves], vec![0; row.len()]);
        model::run(slaves, &banks, &rights, &waits, &mut registers, counts, row, &mut cds);
        let entries = list(row, &cds, 0);
        let kind = if self.writing { Kind::Written } else { Kind::Read };
        let bytes: Vec<_> = entries.iter().filter(|entry| entry.kind == kind).collect();
        let others = entries.iter().filter(|entry| entry.kind != kind);
        must(bytes.len() == self.count, "a built row lists every byte")?;
        must(bytes[self.count - 1].column + 2 == row.len(), "the last byte is its end")?;
        let is_usual = |kind| [Kind::Lock, Kind::Closed].contains(&kind);
        must(others.map(|entry| entry.kind).all(is_usual), "and nothing else but locks and closed")
    }
}
