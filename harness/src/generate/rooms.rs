//! Room for results.

use super::random::Random;
use super::Marks;
use crate::lent::Lent;
use model::entry::ENTRY_BYTES;

/// What a case with room for a result is marked with.
pub const ROOMS: [&str; 5] = ["exact room", "more room", "one short", "shorter", "no room"];

/// A buffer for a result of `needed` bytes: exact, larger, or too small.
pub fn room(random: &mut Random, marks: &mut Marks, needed: usize, too_small: bool) -> Lent {
    let length = if too_small && needed > 0 {
        let less = random.below(needed);
        random.pick(&[0, needed - 1, needed - 1, less])
    } else {
        needed + random.pick(&[0, 0, 0, 1, ENTRY_BYTES - 1, ENTRY_BYTES, ENTRY_BYTES + 1, 100])
    };
    marks.push(match length {
        _ if length == needed => "exact room",
        _ if length > needed => "more room",
        0 => "no room",
        _ if length + 1 == needed => "one short",
        _ => "shorter",
    });
    Lent::copy(&random.bytes(length))
}
