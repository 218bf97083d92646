//! Buffers lent to a call, with guards around them.

use model::entry::ENTRY_BYTES;
use model::table::Stretch;
use std::ops::{Deref, DerefMut};

/// Bytes before and behind a lent buffer that nobody may touch.
const GUARD: usize = 64;
const GUARD_BYTE: u8 = 0xA5;

/// The bytes of a number, of a job and of a count of executions, where a buffer is lent
/// for such.
pub const NUMBER: usize = size_of::<usize>();
pub const JOB: usize = 3 * NUMBER;
pub const EXECUTED: usize = size_of::<u32>();

/// A lent buffer; it stands for the bytes between its guards.
#[derive(Clone)]
pub struct Lent(Vec<u8>);

impl Lent {
    pub fn copy(bytes: &[u8]) -> Lent {
        let guard = [GUARD_BYTE; GUARD];
        Lent([&guard, bytes, &guard].concat())
    }

    pub fn zeros(length: usize) -> Lent {
        Lent::copy(&vec![0; length])
    }

    pub fn of_numbers(numbers: &[usize]) -> Lent {
        Lent::copy(&numbers.iter().flat_map(|number| number.to_ne_bytes()).collect::<Vec<u8>>())
    }

    /// The numbers that it holds.
    pub fn numbers(&self) -> Vec<usize> {
        numbers_in(self)
    }

    /// The jobs of a table that it holds.
    pub fn jobs(&self) -> Vec<Stretch> {
        numbers_in(self).chunks_exact(3).map(|job| [job[0], job[1], job[2]]).collect()
    }

    /// Lends its numbers to a call that may change them, and those around them.
    pub fn lend_numbers<T>(&mut self, call: impl FnOnce(&mut [usize]) -> T) -> T {
        let mut numbers = numbers_in(&self.0);
        let (start, end) = (GUARD / NUMBER, numbers.len() - GUARD / NUMBER);
        let answer = call(&mut numbers[start..end]);
        self.0 = numbers.iter().flat_map(|number| number.to_ne_bytes()).collect();
        answer
    }

    /// The counts of executions that it holds.
    pub fn executed(&self) -> Vec<u32> {
        let count = |bytes: &[u8]| u32::from_ne_bytes(bytes.try_into().expect("as many bytes"));
        self.chunks_exact(EXECUTED).map(count).collect()
    }

    /// Its bytes as counts of executions, in place: nothing is copied while a clock runs.
    pub fn executed_mut(&mut self) -> &mut [u32] {
        // Sound, as any four bytes are a count.
        let (before, counts, behind) = unsafe { self.align_to_mut::<u32>() };
        assert!(before.is_empty() && behind.is_empty(), "lent buffers begin at a count's place");
        counts
    }

    /// Takes out bytes `from` to `to` - 1, as far as there are any.
    pub fn cut(&mut self, from: usize, to: usize) {
        let length = self.len();
        self.0.drain(GUARD + from.min(length)..GUARD + to.min(length));
    }

    /// The place of a touched guard byte, counted from the buffer's first byte.
    pub fn touched_guard(&self) -> Option<isize> {
        let end = GUARD + self.len();
        let mut guards = (0..GUARD).chain(end..end + GUARD);
        let touched = guards.find(|&place| self.0[place] != GUARD_BYTE);
        touched.map(|place| place as isize - GUARD as isize)
    }
}

impl Deref for Lent {
    type Target = [u8];

    fn deref(&self) -> &[u8] {
        &self.0[GUARD..self.0.len() - GUARD]
    }
}

impl DerefMut for Lent {
    fn deref_mut(&mut self) -> &mut [u8] {
        let end = self.0.len() - GUARD;
        &mut self.0[GUARD..end]
    }
}

fn numbers_in(bytes: &[u8]) -> Vec<usize> {
    let number = |bytes: &[u8]| usize::from_ne_bytes(bytes.try_into().expect("as many bytes"));
    bytes.chunks_exact(NUMBER).map(number).collect()
}

/// What a buffer is lent for; by it a case is shown and made small.
#[derive(Clone, Copy, PartialEq, Eq)]
pub enum Use {
    Row,
    Text,
    List,
    Rights,
    Banks,
    Bytes,
    /// Numbers, three a job of a table.
    Jobs,
    /// Numbers that a call changes.
    Counts,
    /// A result goes into it.
    Room,
}

impl Use {
    /// The bytes of a column, a line or an entry, where it is made of such
    /// pieces; all buffers of a case that are get shorter together.
    pub fn piece(self) -> Option<usize> {
        match self {
            Use::Row => Some(1),
            Use::Text => Some(4),
            Use::List => Some(ENTRY_BYTES),
            Use::Rights | Use::Banks | Use::Bytes | Use::Jobs | Use::Counts | Use::Room => None,
        }
    }

    /// The byte that says least.
    pub fn plain(self) -> u8 {
        match self {
            Use::Rights => 3,
            Use::Banks => 1,
            Use::Text => b'0',
            Use::Row | Use::List | Use::Bytes | Use::Jobs | Use::Counts | Use::Room => 0,
        }
    }

    /// Rows as digits where they hold 0 and 1, texts as they are, jobs by their
    /// numbers, all else in hex, repeats shortened.
    pub fn shown(self, bytes: &[u8]) -> String {
        if self == Use::Row && bytes.iter().all(|&byte| byte < 2) {
            return bytes.iter().map(|byte| char::from(b'0' + byte)).collect();
        }
        if self == Use::Text {
            return format!("\"{}\"", bytes.escape_ascii());
        }
        if self == Use::Jobs {
            return format!("{:?}", Lent::copy(bytes).jobs());
        }
        if bytes.len() > 1 && bytes.iter().all(|&byte| byte == bytes[0]) {
            return format!("all {:02x}", bytes[0]);
        }
        bytes.iter().map(|byte| format!("{byte:02x}")).collect::<Vec<_>>().join(" ")
    }
}
