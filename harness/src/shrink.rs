//! Makes a failing case small.

use crate::job::Job;
use crate::lent::{Lent, Use};

/// Whether a lent buffer, by its place among them, is made of pieces.
fn is_in_pieces<J: Job>(place: usize) -> bool {
    J::LENT[place].1.piece().is_some()
}

/// A failing case on its way to a small one.
struct Shrinker<'a, J> {
    case: J,
    fails: &'a dyn Fn(&J) -> bool,
}

/// A small case that still fails.
pub fn shrink<J: Job>(case: &J, fails: &dyn Fn(&J) -> bool) -> J {
    let mut shrinker = Shrinker { case: case.clone(), fails };
    let piece = J::LENT.iter().filter_map(|(_, lent_for)| lent_for.piece()).max().unwrap_or(1);
    for _ in 0..4 {
        let mut dropped = shrinker.take_smaller();
        dropped |= shrinker.drop_pieces(piece);
        dropped |= piece > 1 && shrinker.drop_pieces(1);
        shrinker.simplify_bytes();
        if !dropped {
            break;
        }
    }
    shrinker.shorten_rooms();
    shrinker.case
}

impl<J: Job> Shrinker<'_, J> {
    fn keep_if_failing(&mut self, candidate: J) -> bool {
        let fails = (self.fails)(&candidate);
        if fails {
            self.case = candidate;
        }
        fails
    }

    /// Does without bytes `from` to `to` - 1 of all that is made of pieces.
    fn keep_if_failing_without(&mut self, from: usize, to: usize) -> bool {
        let mut smaller = self.case.clone();
        for (place, lent) in smaller.lent_mut().into_iter().enumerate() {
            if is_in_pieces::<J>(place) {
                lent.cut(from, to);
            }
        }
        smaller.follow_cut(from, to);
        self.keep_if_failing(smaller)
    }

    /// Changes one lent buffer, by its place among them.
    fn keep_if_failing_with(&mut self, place: usize, change: impl Fn(&mut Lent)) -> bool {
        let mut changed = self.case.clone();
        change(changed.lent_mut()[place]);
        self.keep_if_failing(changed)
    }

    /// The bytes of the longest that is made of pieces.
    fn longest(&self) -> usize {
        let lent = self.case.lent();
        let in_pieces = (0..lent.len()).filter(|&place| is_in_pieces::<J>(place));
        in_pieces.map(|place| lent[place].len()).max().unwrap_or(0)
    }

    /// Drops some pieces at once from the end, from the front and from between,
    /// fewer and fewer.
    fn drop_pieces(&mut self, piece: usize) -> bool {
        let mut any = false;
        let mut size = self.longest() / piece * piece;
        while size > 0 {
            while size <= self.longest() && self.drop_from_end_or_front(size) {
                any = true;
            }
            let mut from = 0;
            while from + size <= self.longest() && size <= 64 * piece {
                if self.keep_if_failing_without(from, from + size) {
                    any = true;
                } else {
                    from += size;
                }
            }
            size = size / piece / 2 * piece;
        }
        any
    }

    fn drop_from_end_or_front(&mut self, size: usize) -> bool {
        let longest = self.longest();
        self.keep_if_failing_without(longest - size, longest)
            || self.keep_if_failing_without(0, size)
    }

    /// As often as there is a smaller one that fails.
    fn take_smaller(&mut self) -> bool {
        let mut any = false;
        while self.case.smaller().into_iter().any(|smaller| self.keep_if_failing(smaller)) {
            any = true;
        }
        any
    }

    /// Shortens the room for results.
    fn shorten_rooms(&mut self) {
        for (place, &(_, lent_for)) in J::LENT.iter().enumerate() {
            if lent_for == Use::Room {
                self.shorten_room(place);
            }
        }
    }

    fn shorten_room(&mut self, place: usize) {
        let mut size = self.case.lent()[place].len();
        while size > 0 {
            let length = self.case.lent()[place].len();
            let shorter = size <= length
                && self.keep_if_failing_with(place, |lent| lent.cut(length - size, length));
            if !shorter {
                size /= 2;
            }
        }
    }

    /// Makes bytes plain; whole buffers first.
    fn simplify_bytes(&mut self) {
        for (place, (_, lent_for)) in J::LENT.iter().enumerate() {
            let plain = lent_for.plain();
            if self.keep_if_failing_with(place, |lent| lent.fill(plain)) {
                continue;
            }
            for byte in 0..self.case.lent()[place].len() {
                if self.case.lent()[place][byte] != plain {
                    self.keep_if_failing_with(place, |lent| lent[byte] = plain);
                }
            }
        }
    }
}
