//! The job that builds a write.

use super::access::{self, Access};
use super::Calls;
use crate::bench::Timed;
use crate::generate::{room, Marks, Provoked, Random};
use crate::job::{fields, Job, Refusals};
use crate::lent::Lent;
use model::Outcome::{self, Made};

fields!(BuildWrite { id: u8, address: u8, wait: u8; bytes: Bytes, out: Room });

impl Job for BuildWrite {
    const REFUSALS: Refusals<BuildWrite> = &[
        (10, |case| case.access().is_bad()),
        (5, |case| case.access().is_too_long()),
        (9, |case| case.access().columns() > case.out.len()),
    ];

    fn marks() -> Marks {
        access::MARKS.to_vec()
    }

    fn make(random: &mut Random, provoked: &Provoked, marks: &mut Marks) -> BuildWrite {
        let access = Access::draw(random, provoked, true);
        let access = Access { count: access.count.min(1000), ..access };
        access.mark(marks);
        let Access { id, address, count, wait, .. } = access;
        let out = room(random, marks, access.columns(), provoked.has(9));
        BuildWrite { id, address, wait, bytes: Lent::copy(&random.bytes(count)), out }
    }

    fn call(&mut self, calls: &impl Calls) -> Outcome {
        calls.build_write(self.id, self.address, &self.bytes, self.wait, &mut self.out)
    }

    fn check(&self, left: &BuildWrite, outcome: Outcome, _: &mut Random) -> Result<(), String> {
        let Made(columns) = outcome else { return Ok(()) };
        self.access().check(&left.out[..columns])
    }

    fn timed() -> Vec<Timed<BuildWrite>> {
        let timed = |(count, wait, row)| {
            let bytes = Lent::copy(&vec![0x5A; count]);
            let mut case = BuildWrite { id: 1, address: 64, wait, bytes, out: Lent::zeros(0) };
            let columns = case.access().columns();
            case.out = Lent::zeros(columns);
            Timed::new("build_write", row, columns, vec![case])
        };
        access::TIMED.map(timed).into()
    }
}

impl BuildWrite {
    fn access(&self) -> Access {
        let &BuildWrite { id, address, wait, .. } = self;
        Access { writing: true, id, address, count: self.bytes.len(), wait }
    }
}
