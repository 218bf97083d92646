//! What a job says of itself, once, in its file under jobs/.

use crate::bench::Timed;
use crate::counts::Counts;
use crate::generate::{Marks, Provoked, Random, ROOMS};
use crate::jobs::Calls;
use crate::lent::{Lent, Use};
use model::Outcome;

/// A job's refusals in the paper's order: the number, and whether its condition
/// holds for a case, judged by itself. 9 is told only where the result is
/// defined, or where an empty buffer is certainly too small.
pub type Refusals<J> = &'static [(u8, fn(&J) -> bool)];

/// Refusals of which no two can hold in one case, before all others in the
/// paper's order: their numbers, and which of them holds for a case.
pub type Exclusive<J> = (&'static [u8], fn(&J) -> Option<u8>);

/// A job of paper 01. A value of it is a case: all that one call is given, and
/// after the call all that it has left.
pub trait Job: Fields + Clone + 'static {
    const EXCLUSIVE: Exclusive<Self> = (&[], |_| None);
    const REFUSALS: Refusals<Self>;
    /// Those among them of which any can go before any other, by the case.
    const IN_ANY_ORDER: &'static [u8] = &[];

    /// What its cases must be marked with, beside the marks of room for a result.
    fn marks() -> Marks {
        Marks::new()
    }

    /// The refusals that a case is to provoke.
    fn provoke(random: &mut Random) -> Provoked {
        Provoked::draw(random, &numbers::<Self>(), Self::EXCLUSIVE.0)
    }

    /// A case that provokes these refusals, marked with how it was made.
    fn make(random: &mut Random, provoked: &Provoked, marks: &mut Marks) -> Self;

    /// The call on this case, which becomes what the call leaves.
    fn call(&mut self, calls: &impl Calls) -> Outcome;

    /// The refusal to be given where these hold, in the job's order.
    fn given(&self, holding: &[u8]) -> Option<u8> {
        holding.first().copied()
    }

    /// What must hold of the model's outcome and of what it left, by itself.
    fn check(&self, _left: &Self, _outcome: Outcome, _random: &mut Random) -> Result<(), String> {
        Ok(())
    }

    /// What must hold of further calls, by whoever answers them, behind one that
    /// had this outcome.
    fn check_further(&self, _: &Self, _: Outcome, _: &impl Calls) -> Result<(), String> {
        Ok(())
    }

    /// Counts what a call met that made something.
    fn count(&self, _left: &Self, _made: usize, _counts: &mut Counts) {}

    /// Counts what a call met that was refused.
    fn count_refused(&self, _outcome: Outcome, _counts: &mut Counts) {}

    /// The case with all the room that its result can need.
    fn roomy(&self) -> Self {
        self.clone()
    }

    /// What was made, for a person to read; `who` made it.
    fn shown(&self, _who: &str, _made: usize) -> String {
        String::new()
    }

    /// Follows when bytes `from` to `to` - 1 were cut from its rows, text or list.
    fn follow_cut(&mut self, _from: usize, _to: usize) {}

    /// Cases that are smaller in another way than by a cut, the smallest first.
    fn smaller(&self) -> Vec<Self> {
        Vec::new()
    }

    /// What is timed.
    fn timed() -> Vec<Timed<Self>>;
}

/// The numbers of a job's refusals, in its order.
pub fn numbers<J: Job>() -> Vec<u8> {
    let others = J::REFUSALS.iter().map(|&(number, _)| number);
    J::EXCLUSIVE.0.iter().copied().chain(others).collect()
}

/// The refusals of a job in its order, each with those that can hold where it is
/// given: the later ones, and those of which any can go first.
pub fn with_others<J: Job>() -> Vec<(u8, Vec<u8>)> {
    let numbers = numbers::<J>();
    let exclusive = J::EXCLUSIVE.0.len();
    let is_free = |number: &u8| J::IN_ANY_ORDER.contains(number);
    let others = |order: usize| {
        let earlier =
            numbers[..order].iter().filter(|other| is_free(other) && is_free(&numbers[order]));
        earlier.chain(&numbers[exclusive.max(order + 1)..]).copied().collect()
    };
    numbers.iter().enumerate().map(|(order, &number)| (number, others(order))).collect()
}

/// What a job's cases must be marked with.
pub fn marks<J: Job>() -> Marks {
    let has_room = J::LENT.iter().any(|&(_, lent_for)| lent_for == Use::Room);
    let rooms: &[_] = if has_room { &ROOMS } else { &[] };
    [&J::marks(), rooms].concat()
}

/// The refusals whose condition holds, in the job's order.
pub fn holding<J: Job>(case: &J) -> Vec<u8> {
    let others = J::REFUSALS.iter().filter(|(_, holds)| holds(case));
    let exclusive = (J::EXCLUSIVE.1)(case);
    exclusive.into_iter().chain(others.map(|&(number, _)| number)).collect()
}

/// The fields of a case, in the order of the call.
pub trait Fields {
    /// The names of the lent buffers, and what each is lent for.
    const LENT: &'static [(&'static str, Use)];

    fn numbers(&self) -> Vec<(&'static str, usize)>;
    fn lent(&self) -> Vec<&Lent>;
    fn lent_mut(&mut self) -> Vec<&mut Lent>;
}

/// The struct of a job's cases: its numbers; what is lent, and for what use; then
/// what else is known of a case.
macro_rules! fields {
    ($job:ident {
        $($number:ident: $kind:ty),*;
        $($lent:ident: $use:ident),*
        $(; $($known:ident: $other:ty),*)?
    }) => {
        #[derive(Clone)]
        pub struct $job {
            $($number: $kind,)*
            $($lent: $crate::lent::Lent,)*
            $($($known: $other,)*)?
        }

        impl $crate::job::Fields for $job {
            const LENT: &'static [(&'static str, $crate::lent::Use)] =
                &[$((stringify!($lent), $crate::lent::Use::$use)),*];

            fn numbers(&self) -> Vec<(&'static str, usize)> {
                vec![$((stringify!($number), self.$number as usize)),*]
            }

            fn lent(&self) -> Vec<&$crate::lent::Lent> {
                vec![$(&self.$lent),*]
            }

            fn lent_mut(&mut self) -> Vec<&mut $crate::lent::Lent> {
                vec![$(&mut self.$lent),*]
            }
        }
    };
}
pub(crate) use fields;
