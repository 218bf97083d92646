//! The job that builds a read.

use super::access::{self, Access};
use super::Calls;
use crate::bench::Timed;
use crate::generate::{room, Marks, Provoked, Random};
use crate::job::{fields, Job, Refusals};
use crate::lent::Lent;
use model::Outcome::{self, Made};

fields!(BuildRead { id: u8, address: u8, count: usize, wait: u8; out: Room });

impl Job for BuildRead {
    const REFUSALS: Refusals<BuildRead> = &[
        (10, |case| case.access().is_bad()),
        (5, |case| case.access().is_too_long()),
        (9, |case| case.access().columns() > case.out.len()),
    ];

    fn marks() -> Marks {
        access::MARKS.to_vec()
    }

    fn make(random: &mut Random, provoked: &Provoked, marks: &mut Marks) -> BuildRead {
        let access = Access::draw(random, provoked, false);
        access.mark(marks);
        let Access { id, address, count, wait, .. } = access;
        let needed = Access { count: count.min(100), ..access }.columns();
        BuildRead { id, address, count, wait, out: room(random, marks, needed, provoked.has(9)) }
    }

    fn call(&mut self, calls: &impl Calls) -> Outcome {
        calls.build_read(self.id, self.address, self.count, self.wait, &mut self.out)
    }

    fn check(&self, left: &BuildRead, outcome: Outcome, _: &mut Random) -> Result<(), String> {
        let Made(columns) = outcome else { return Ok(()) };
        self.access().check(&left.out[..columns])
    }

    fn timed() -> Vec<Timed<BuildRead>> {
        let timed = |(count, wait, row)| {
            let mut case = BuildRead { id: 1, address: 64, count, wait, out: Lent::zeros(0) };
            let columns = case.access().columns();
            case.out = Lent::zeros(columns);
            Timed::new("build_read", row, columns, vec![case])
        };
        access::TIMED.map(timed).into()
    }
}

impl BuildRead {
    fn access(&self) -> Access {
        let &BuildRead { id, address, count, wait, .. } = self;
        Access { writing: false, id, address, count, wait }
    }
}
