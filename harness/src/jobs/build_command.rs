//! The job that builds a command.

use super::Calls;
use crate::bench::Timed;
use crate::checks::must;
use crate::generate::{room, Marks, Provoked, Random};
use crate::job::{fields, Job, Refusals};
use crate::lent::Lent;
use model::entry::Kind;
use model::list::list;
use model::Outcome::{self, Made};

/// The columns of a broadcast and of an addressed command, EX the last of them.
const BROADCAST: usize = 32;
const ADDRESSED: usize = 39;

/// What a command is marked with, not executed and executed.
const MARKS: [[&str; 2]; 2] =
    [["broadcast, EX 0", "broadcast, EX 1"], ["addressed, EX 0", "addressed, EX 1"]];

fields!(BuildCommand { ids: u8, cmd: u8, execute: bool; out: Room });

impl Job for BuildCommand {
    const REFUSALS: Refusals<BuildCommand> =
        &[(10, |case| case.cmd > 3), (9, |case| case.out.len() < case.columns())];

    fn marks() -> Marks {
        MARKS.concat()
    }

    fn make(random: &mut Random, provoked: &Provoked, marks: &mut Marks) -> BuildCommand {
        let one = 1 << random.below(8);
        let any = random.between(1, 255) as u8;
        let ids = random.pick(&[0, 0, one, any, any]);
        let bad = random.pick(&[4, 5, 6, 7, 8, 64, 128, 255]);
        let cmd = if provoked.has(10) { bad } else { random.below(4) as u8 };
        let execute = random.one_in(2);
        let mut case = BuildCommand { ids, cmd, execute, out: Lent::zeros(0) };
        marks.push(MARKS[usize::from(ids != 0)][usize::from(execute)]);
        case.out = room(random, marks, case.columns(), provoked.has(9));
        case
    }

    fn call(&mut self, calls: &impl Calls) -> Outcome {
        calls.build_command(self.ids, self.cmd, self.execute, &mut self.out)
    }

    /// Run on eight slaves, it is listed once in the last column as it was asked for, and
    /// counted for whom it names.
    fn check(&self, left: &BuildCommand, outcome: Outcome, _: &mut Random) -> Result<(), String> {
        let Made(columns) = outcome else { return Ok(()) };
        let cdm = &left.out[..columns];
        let (banks, rights, waits) = ([1; 8], [3; 1024], [0; 8]);
        let (mut counts, mut cds) = ([7; 32], vec![0; columns]);
        model::run(8, &banks, &rights, &waits, &mut [0; 1024], &mut counts, cdm, &mut cds);
        let entries = list(cdm, &cds, 0);
        let kind = if self.execute { Kind::Executed } else { Kind::Withheld };
        let kinds: Vec<Kind> = entries.iter().map(|entry| entry.kind).collect();
        must(kinds == [Kind::Lock, Kind::Command, kind], "a built command is listed")?;
        must(entries[2].column + 1 == columns, "EX is its last column")?;
        let named = if self.ids == 0 { 8 } else { self.ids.count_ones() };
        let wanted = if self.execute { named } else { 0 };
        must(counts.iter().sum::<u32>() == wanted, "it counts for whom it names")
    }

    fn timed() -> Vec<Timed<BuildCommand>> {
        let timed = |(ids, row): (u8, &'static str)| {
            let mut case = BuildCommand { ids, cmd: 2, execute: true, out: Lent::zeros(0) };
            let columns = case.columns();
            case.out = Lent::zeros(columns);
            Timed::new("build_command", row, columns, vec![case])
        };
        [(0, "to all"), (5, "to two")].map(timed).into()
    }
}

impl BuildCommand {
    fn columns(&self) -> usize {
        if self.ids == 0 {
            BROADCAST
        } else {
            ADDRESSED
        }
    }
}
