//! Which refusals a case provokes, and what many of them are provoked with.

use super::random::Random;

/// Numbers that turn into small ones if cut to fewer bits.
pub const TWO_16: usize = 1 << 16;
pub const TWO_32: usize = 1 << 32;
pub const TWO_57: usize = 1 << 57;

pub const BAD_ROW_BYTES: &[u8] = &[2, 3, 48, 49, 128, 254, 255];

/// The refusals that a case is to provoke.
pub struct Provoked(Vec<u8>);

impl Provoked {
    /// Mostly none, often one, often several of these, and then at times of the last ones
    /// alone. Of the exclusive ones the first stands for all: they are drawn as one number.
    pub fn draw(random: &mut Random, numbers: &[u8], exclusive: &[u8]) -> Provoked {
        let others = exclusive.get(1..).unwrap_or_default();
        let mut numbers = numbers.to_vec();
        numbers.retain(|number| !others.contains(number));
        Provoked(match random.below(10) {
            0..=5 => Vec::new(),
            6..=7 => vec![random.pick(&numbers)],
            8 => numbers.into_iter().filter(|_| random.one_in(2)).collect(),
            _ => {
                let first = random.below(1 + numbers.len().saturating_sub(4));
                numbers.into_iter().skip(first).filter(|_| random.one_in(2)).collect()
            }
        })
    }

    /// Two of these.
    pub fn two(random: &mut Random, numbers: &[u8]) -> Provoked {
        Provoked(vec![random.pick(numbers), random.pick(numbers)])
    }

    pub fn has(&self, number: u8) -> bool {
        self.0.contains(&number)
    }

    /// Whether there is none before this one, the last of its job.
    pub fn none_before(&self, last: u8) -> bool {
        self.0.iter().all(|&number| number == last)
    }
}

/// Gives a buffer a length that it must not have.
pub fn spoil_length(random: &mut Random, buffer: &mut Vec<u8>, byte: u8) {
    let length = other_length(random, buffer.len());
    buffer.resize(length, byte);
}

/// A length that is not `length`.
pub fn other_length(random: &mut Random, length: usize) -> usize {
    let any = random.below(3000);
    let less = random.pick(&[1, 64]);
    let more = random.pick(&[1, 64, 128]);
    let other = random.pick(&[0, length + more, length.wrapping_sub(less), any]);
    if other == length || other > length + 5000 {
        return length + 1;
    }
    other
}

/// Puts one of the bad bytes somewhere, often at an end of the slice.
pub fn spoil_byte(random: &mut Random, slice: &mut [u8], bad: &[u8]) {
    if !slice.is_empty() {
        let any = random.below(slice.len());
        let place = random.pick(&[0, slice.len() - 1, any]);
        slice[place] = random.pick(bad);
    }
}
