//! The job that reads a table of stretches of one recording.

use super::read::printed;
use super::{Calls, Lists};
use crate::bench::Timed;
use crate::checks::{banks, commands, gives_up, must, starts};
use crate::conditions::{holds_of_job, OF_JOB};
use crate::counts::stretches::Taken;
use crate::counts::told_jobs::Untaken;
use crate::counts::Counts;
use crate::generate::tables::{other_count, table};
use crate::generate::{room, Marks, Provoked, Random};
use crate::job::{fields, numbers, Job, Refusals};
use crate::lent::{Lent, JOB, NUMBER};
use model::entry::ENTRY_BYTES;
use model::list::list;
use model::rows::MOST_COLUMNS;
use model::table::{Rows, Stretch};
use model::Outcome::{self, Made, OfJob, Refused};

/// "The reader's own for the first job that has one."
const OWN: &[u8] = &[5, 7, 8];

fields!(ReadAll { ; cdm: Row, cds: Row, jobs: Jobs, out: Room, counts: Counts });

impl Job for ReadAll {
    const REFUSALS: Refusals<ReadAll> = &[
        (32, |case| case.counts.numbers().len() != case.jobs.jobs().len()),
        (6, |case| case.cdm.len() != case.cds.len()),
        (20, |case| case.first_with(&[20]).is_some()),
        (5, |case| case.first_with(&[5]).is_some()),
        (7, |case| case.first_with(&[7]).is_some()),
        (8, |case| case.first_with(&[8]).is_some()),
        (9, |case| case.needed_at_least() > case.out.len()),
    ];

    const IN_ANY_ORDER: &'static [u8] = OWN;

    /// Two more often than of other jobs: what is told hangs on which jobs have them.
    fn provoke(random: &mut Random) -> Provoked {
        let numbers = numbers::<ReadAll>();
        match random.below(6) {
            0 => Provoked::two(random, &numbers),
            1 => Provoked::two(random, &OF_JOB),
            _ => Provoked::draw(random, &numbers, &[]),
        }
    }

    fn make(random: &mut Random, provoked: &Provoked, marks: &mut Marks) -> ReadAll {
        let table = table(random, provoked);
        let jobs = table.jobs.len();
        let counts = if provoked.has(32) { other_count(random, jobs) } else { jobs };
        let mut case = ReadAll {
            cdm: Lent::copy(&table.cdm),
            cds: Lent::copy(&table.cds),
            jobs: Lent::of_numbers(&table.jobs.concat()),
            out: Lent::zeros(0),
            counts: Lent::copy(&random.bytes(NUMBER * counts)),
        };
        case.out = case.draw_room(random, marks, provoked.has(9));
        case
    }

    fn call(&mut self, calls: &impl Calls) -> Outcome {
        let ReadAll { cdm, cds, jobs, out, counts } = self;
        counts
            .lend_numbers(|counts| calls.read_all([&cdm[..], &cds[..]], &jobs.jobs(), out, counts))
    }

    /// "The reader's own for the first job that has one", and of that job the first.
    fn given(&self, holding: &[u8]) -> Option<u8> {
        let first = holding.first()?;
        if !OWN.contains(first) {
            return Some(*first);
        }
        let job = self.jobs.jobs()[self.first_with(OWN)?];
        OWN.iter().copied().find(|&number| holds_of_job(number, job, self.rows()))
    }

    fn check(&self, left: &ReadAll, outcome: Outcome, _: &mut Random) -> Result<(), String> {
        match outcome {
            Refused(number) => must(!OF_JOB.contains(&number), "it tells its job"),
            OfJob { number: 20, job } => {
                must(self.first_with(&[20]) == Some(job), "the first job that is outside")
            }
            OfJob { job, .. } => {
                must(self.first_with(OWN) == Some(job), "the first job with one of its own")
            }
            _ => self.jobs.jobs().into_iter().zip(left.lists()).try_for_each(|(job, list)| {
                let [cdm, cds] = self.cut(job);
                starts(cdm, list)?;
                banks(list)?;
                gives_up(cdm, cds, list)?;
                commands(cdm, cds, list)
            }),
        }
    }

    /// "The outcome equals the calls made singly, in table order."
    fn check_further(
        &self,
        left: &ReadAll,
        outcome: Outcome,
        calls: &impl Calls,
    ) -> Result<(), String> {
        match outcome {
            Refused(32) => return Ok(()),
            Refused(6) | OfJob { number: 20, .. } => {
                return self.check_unlent(&Err(outcome), calls)
            }
            _ => {}
        }
        let mut singly = self.roomy();
        let by_singles = singly.singly(calls, |_, length| ENTRY_BYTES * length);
        let told = format!("one call says {outcome:?}, the calls made singly {by_singles:?}");
        match (outcome, by_singles) {
            (Refused(9), Made(made)) => must(ENTRY_BYTES * made > self.out.len(), &told)?,
            _ => must(outcome == by_singles, &told)?,
        }
        if let Made(_) = outcome {
            must(left.counts[..] == singly.counts[..], "the counts are those of single calls")?;
            must(left.lists() == singly.lists(), "the lists are those of single calls")?;
        }
        let lists = || singly.lists().into_iter().map(<[u8]>::to_vec).collect();
        let unlent = by_singles.refusal().map_or_else(|| Ok(lists()), |_| Err(by_singles));
        self.check_unlent(&unlent, calls)
    }

    fn count(&self, left: &ReadAll, _: usize, counts: &mut Counts) {
        let (rows, jobs, lists) = (self.rows(), &self.jobs.jobs(), left.lists());
        counts.add_table(&Taken { rows, jobs, lists, room: self.out.len() });
    }

    fn count_refused(&self, outcome: Outcome, counts: &mut Counts) {
        let (rows, jobs, needs) = (self.rows(), &self.jobs.jobs(), self.needs());
        counts.add_refused_table(&Untaken { rows, jobs, needs, room: self.out.len() }, outcome);
    }

    fn roomy(&self) -> ReadAll {
        ReadAll { out: Lent::zeros(ENTRY_BYTES * self.columns()), ..self.clone() }
    }

    fn shown(&self, who: &str, _: usize) -> String {
        let list = |(job, list)| format!("list of the {who}, job {job}:\n{}", printed(list));
        self.lists().into_iter().enumerate().map(list).collect()
    }

    /// What lay in the columns that were cut is taken off the stretches.
    fn follow_cut(&mut self, from: usize, to: usize) {
        let moved = |column: usize| column - (column.clamp(from, to) - from);
        let follow = |[first, length, opening]: Stretch| {
            let Some(end) = first.checked_add(length) else { return [first, length, opening] };
            let past = opening.saturating_sub(length);
            let [start, open, end] = [first, first + opening - past, end].map(moved);
            [start, end - start, open - start + past]
        };
        let jobs: Vec<Stretch> = self.jobs.jobs().into_iter().map(follow).collect();
        self.jobs = Lent::of_numbers(&jobs.concat());
    }

    /// One half of the table, then the table without one job or some.
    fn smaller(&self) -> Vec<ReadAll> {
        let jobs = self.jobs.jobs().len();
        let (half, some) = (jobs / 2, jobs.div_ceil(16));
        let mut all = Vec::new();
        if jobs > 1 {
            all.extend([self.without(half, jobs), self.without(0, half)]);
        }
        all.extend((0..jobs).step_by(some.max(1)).map(|from| self.without(from, from + some)));
        all
    }

    /// Timed by `bench::tables`, which makes no table while the clock runs.
    fn timed() -> Vec<Timed<ReadAll>> {
        Vec::new()
    }
}

impl ReadAll {
    fn rows(&self) -> Rows<'_> {
        [&self.cdm[..], &self.cds[..]]
    }

    /// The rows of a job's stretch alone.
    fn cut(&self, [first, length, _]: Stretch) -> Rows<'_> {
        self.rows().map(|row| &row[first..first + length])
    }

    /// The first job of which one of these refusals holds.
    fn first_with(&self, numbers: &[u8]) -> Option<usize> {
        let holds = |job| numbers.iter().any(|&number| holds_of_job(number, job, self.rows()));
        self.jobs.jobs().into_iter().position(holds)
    }

    /// The columns of all stretches together, of each as many as can be read.
    fn columns(&self) -> usize {
        let most = self.cdm.len().min(MOST_COLUMNS);
        self.jobs.jobs().iter().map(|&[_, length, _]| length.min(most)).sum()
    }

    /// The bytes of each job's list, 0 where it has none.
    fn needs(&self) -> Vec<usize> {
        let has_list = |job| !OF_JOB.iter().any(|&number| holds_of_job(number, job, self.rows()));
        let need = |job: Stretch| {
            let [cdm, cds] = self.cut(job);
            ENTRY_BYTES * list(cdm, cds, job[2]).len()
        };
        self.jobs.jobs().into_iter().map(|job| if has_list(job) { need(job) } else { 0 }).collect()
    }

    /// The bytes of all lists that there are.
    fn needed_at_least(&self) -> usize {
        self.needs().iter().sum()
    }

    /// Room for its lists: exact, larger, too small, or near what every column needs.
    fn draw_room(&self, random: &mut Random, marks: &mut Marks, too_small: bool) -> Lent {
        let needed = self.needed_at_least();
        let every = ENTRY_BYTES * self.columns();
        if too_small || every <= needed || random.one_in(2) {
            return room(random, marks, needed, too_small);
        }
        let between = random.between(needed, every);
        let length = random.pick(&[every, every, every - 1, every + 1, between, between]);
        Lent::copy(&random.bytes(length))
    }

    /// The calls made singly, one list behind the other and the count of each, up to one
    /// that is refused; `room` says what a job of such a length is lent.
    fn singly(&mut self, calls: &impl Calls, room: impl Fn(usize, usize) -> usize) -> Outcome {
        let jobs = self.jobs.jobs();
        let mut counts = self.counts.numbers();
        let mut at = 0;
        for (job, &[first, length, opening]) in jobs.iter().enumerate() {
            let (cdm, cds) = (&self.cdm[first..first + length], &self.cds[first..first + length]);
            let end = at + room(job, length).min(self.out.len() - at);
            match calls.read(cdm, cds, opening, &mut self.out[at..end]) {
                Made(entries) => {
                    counts[job] = entries;
                    at += ENTRY_BYTES * entries;
                }
                Refused(number) => return OfJob { number, job },
                other => return other,
            }
        }
        self.counts = Lent::of_numbers(&counts);
        Made(at / ENTRY_BYTES)
    }

    /// Without lent buffers the outcome is this, where it can be had so.
    fn check_unlent(&self, wanted: &Lists, calls: &impl Calls) -> Result<(), String> {
        let unlent = calls.lists(self.rows(), &self.jobs.jobs());
        let is_wanted = unlent.is_none_or(|unlent| unlent == *wanted);
        must(is_wanted, "without lent buffers the outcome is the same")
    }

    /// The lists that a call left, as far as there are so many bytes.
    fn lists(&self) -> Vec<&[u8]> {
        let mut rest = &self.out[..];
        let mut list = |count: usize| {
            let (list, behind) = rest.split_at(count.saturating_mul(ENTRY_BYTES).min(rest.len()));
            rest = behind;
            list
        };
        self.counts.numbers().into_iter().map(&mut list).collect()
    }

    /// The table without the jobs `from` to `to` - 1.
    fn without(&self, from: usize, to: usize) -> ReadAll {
        let mut smaller = self.clone();
        smaller.jobs.cut(JOB * from, JOB * to);
        smaller.counts.cut(NUMBER * from, NUMBER * to);
        smaller
    }
}
