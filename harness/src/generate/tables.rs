//! Tables of jobs over one long recording, and what can be wrong with a job.

use super::provoked::{other_length, spoil_byte, Provoked, BAD_ROW_BYTES};
use super::provoked::{TWO_16, TWO_32, TWO_57};
use super::random::Random;
use super::recordings::recording;
use crate::conditions::OF_JOB;
use model::rows::{MOST_COLUMNS, ZEROS_TO_REST};
use model::table::Stretch;

pub const MOST_JOBS: usize = 3000;

/// So many columns are new; a longer recording repeats them.
const NEW_COLUMNS: usize = 2000;
/// Past what the two bytes of a column can tell.
const PAST_TWO_BYTES: usize = TWO_16 + 500;
/// The columns of all stretches together are mostly fewer.
const COLUMNS_OF_ALL: usize = 12_000;

/// Two rows and a table of stretches.
pub struct Table {
    pub cdm: Vec<u8>,
    pub cds: Vec<u8>,
    pub jobs: Vec<Stretch>,
}

/// A table with 6, 20, 5, 7 and 8 as asked for.
pub fn table(random: &mut Random, provoked: &Provoked) -> Table {
    let has_bad_job = OF_JOB.into_iter().any(|number| provoked.has(number));
    // Mostly so many that one is neither the first nor the last.
    let least = if has_bad_job { random.pick(&[1, 2, 3, 3, 3, 3]) } else { 0 };
    let jobs = job_count(random).max(least);
    let mut table = long_recording(random, provoked.has(5));
    table.draw_jobs(random, jobs);
    table.spoil_jobs(random, provoked);
    if provoked.has(6) {
        let length = other_length(random, table.cdm.len());
        let row = if random.one_in(2) { &mut table.cdm } else { &mut table.cds };
        row.resize(length, 0);
    }
    table
}

fn job_count(random: &mut Random) -> usize {
    match random.below(128) {
        0 => MOST_JOBS,
        1 => random.between(1000, MOST_JOBS),
        2 => random.between(100, 1000),
        3..=10 => random.between(13, 100),
        11..=18 => 0,
        19..=30 => 1,
        _ => random.between(2, 12),
    }
}

/// How many counts are lent for so many jobs that are not as many.
pub fn other_count(random: &mut Random, jobs: usize) -> usize {
    let fewer = jobs.saturating_sub(1);
    let counts = random.pick(&[0, fewer, fewer, jobs + 1, jobs + 1, 3 * jobs, 8 * jobs]);
    if counts == jobs {
        return jobs + 1;
    }
    counts
}

/// Recordings joined: often past the limit of a row, at times past what two bytes count.
fn long_recording(random: &mut Random, is_past_limit: bool) -> Table {
    let columns = match random.below(64) {
        0 => PAST_TWO_BYTES + random.below(5000),
        1..=4 => MOST_COLUMNS + 1,
        5..=15 if !is_past_limit => random.between(0, 1000),
        16..=17 if !is_past_limit => MOST_COLUMNS,
        _ => random.between(MOST_COLUMNS + 1, 3 * MOST_COLUMNS),
    };
    let mut table = Table { cdm: Vec::new(), cds: Vec::new(), jobs: Vec::new() };
    while table.cdm.len() < columns.min(NEW_COLUMNS) {
        let rows = recording(random);
        table.cdm.extend_from_slice(&rows.cdm);
        table.cds.extend_from_slice(&rows.cds);
    }
    for row in [&mut table.cdm, &mut table.cds] {
        while row.len() < columns {
            row.extend_from_within(..);
        }
        row.truncate(columns);
    }
    table
}

/// The columns that hold a 1 behind fourteen zeros.
pub fn starts(cdm: &[u8]) -> Vec<usize> {
    let is_start = |column: &usize| {
        let zeros = &cdm[column - ZEROS_TO_REST..*column];
        cdm[*column] == 1 && zeros.iter().all(|&bit| bit == 0)
    };
    (ZEROS_TO_REST..cdm.len()).filter(is_start).collect()
}

impl Table {
    fn draw_jobs(&mut self, random: &mut Random, jobs: usize) {
        let starts = starts(&self.cdm);
        let usual = (COLUMNS_OF_ALL / jobs.max(1)).clamp(60, 400);
        for _ in 0..jobs {
            let job = match self.jobs.last() {
                Some(&last) if random.one_in(16) => last,
                Some(_) if random.one_in(4) => {
                    let near = random.pick(&self.jobs);
                    self.near(random, near, usual)
                }
                _ => self.anywhere(random, &starts, usual),
            };
            self.jobs.push(job);
        }
    }

    fn length(&self, random: &mut Random, usual: usize) -> usize {
        let columns = self.cdm.len();
        let drawn = match random.below(64) {
            0..=5 => 0,
            6 => 1,
            7 if usual > 60 => MOST_COLUMNS,
            8 if usual > 60 => columns.min(MOST_COLUMNS),
            _ => random.between(1, usual),
        };
        drawn.min(columns)
    }

    /// At a frame, at either end or anywhere.
    fn anywhere(&self, random: &mut Random, starts: &[usize], usual: usize) -> Stretch {
        let length = self.length(random, usual);
        let last = self.cdm.len() - length;
        let any = random.between(0, last);
        let first = match random.below(16) {
            0 => 0,
            1 | 2 => last,
            3..=6 => any,
            _ if starts.is_empty() => any,
            _ => {
                let before = random.pick(&[0, 1, 13, 14, 14, 14, 14, 14, 15, 20, 60]);
                random.pick(starts).saturating_sub(before).min(last)
            }
        };
        [first, length, opening(random, length)]
    }

    /// Among the columns of another job, or right behind it.
    fn near(&self, random: &mut Random, [first, length, _]: Stretch, usual: usize) -> Stretch {
        let within = random.between(first, first + length);
        let length = self.length(random, usual);
        let first = within.min(self.cdm.len() - length);
        [first, length, opening(random, length)]
    }

    /// 20, 5, 7 and 8 as asked for, at times of two jobs; where not 7, at times bytes that
    /// are no bits beside the stretches.
    fn spoil_jobs(&mut self, random: &mut Random, provoked: &Provoked) {
        let mut drawn = None;
        for number in [5, 5, 20, 20, 7, 7, 8, 8] {
            let is_again = drawn.is_some_and(|(other, _)| other == number);
            if !provoked.has(number) || is_again && !random.one_in(8) {
                continue;
            }
            let job = any_job(random, self.jobs.len(), drawn.map(|(_, job)| job));
            drawn = Some((number, job));
            match number {
                5 => self.make_too_long(random, job),
                20 => self.put_outside(random, job),
                7 => self.spoil_stretch(random, job),
                _ => self.open_past_end(random, job),
            }
        }
        if !provoked.has(7) && !self.jobs.is_empty() && random.one_in(4) {
            self.spoil_beside(random);
        }
    }

    fn make_too_long(&mut self, random: &mut Random, job: usize) {
        let columns = self.cdm.len();
        let any = random.between(MOST_COLUMNS + 1, columns);
        let length = random.pick(&[MOST_COLUMNS + 1, MOST_COLUMNS + 1, any, columns]);
        let last = columns - length;
        let any = random.between(0, last);
        self.jobs[job] = [random.pick(&[0, any, any, last]), length, opening(random, length)];
    }

    fn put_outside(&mut self, random: &mut Random, job: usize) {
        let columns = self.cdm.len();
        let [first, length, opening] = &mut self.jobs[job];
        let far = random.pick(&[TWO_16, TWO_32, TWO_57, 1 << 63]);
        match random.below(8) {
            0 | 1 => *first = columns.saturating_sub(*length) + 1,
            2 => *length = columns.saturating_sub(*first) + 1,
            3 => (*first, *length) = (columns + random.pick(&[1, 1, 2, far]), 0),
            4 => *first = usize::MAX - random.below(3),
            5 => {
                *first = (*first).max(1);
                *length = usize::MAX - *first + 1 + random.below(*first);
            }
            6 => *first = first.saturating_add(far + columns),
            _ => *length = random.pick(&[columns + far, usize::MAX]),
        }
        *opening = (*opening).min(*length);
    }

    /// Puts a byte that is no bit among the columns of a stretch, in either row or both.
    fn spoil_stretch(&mut self, random: &mut Random, job: usize) {
        let columns = self.cdm.len();
        let [first, length, _] = &mut self.jobs[job];
        if *length == 0 && *first < columns {
            *length = 1;
        }
        let [from, to] = [*first, first.saturating_add(*length)].map(|end| end.min(columns));
        let which = random.below(3);
        if which != 0 {
            spoil_byte(random, &mut self.cdm[from..to], BAD_ROW_BYTES);
        }
        if which != 1 {
            spoil_byte(random, &mut self.cds[from..to], BAD_ROW_BYTES);
        }
    }

    fn open_past_end(&mut self, random: &mut Random, job: usize) {
        let columns = self.cdm.len();
        let [first, length, opening] = &mut self.jobs[job];
        let next = length.saturating_add(1);
        let of_recording = next.max(first.saturating_add(*length / 2).min(columns));
        let far = length.saturating_add(random.pick(&[TWO_16, TWO_32, TWO_57, 1 << 63]));
        *opening = random.pick(&[next, next, of_recording, of_recording, far, usize::MAX]);
    }

    /// Puts bytes that are no bits into columns that no stretch has, next to one.
    fn spoil_beside(&mut self, random: &mut Random) {
        for _ in 0..4 {
            let [first, length, _] = random.pick(&self.jobs);
            let beside = random.pick(&[first.wrapping_sub(1), first.wrapping_add(length)]);
            let has = |&[first, length, _]: &Stretch| beside >= first && beside - first < length;
            if beside < self.cdm.len() && !self.jobs.iter().any(has) {
                let row = if random.one_in(2) { &mut self.cdm } else { &mut self.cds };
                row[beside] = random.pick(BAD_ROW_BYTES);
            }
        }
    }
}

fn opening(random: &mut Random, length: usize) -> usize {
    let within = random.between(0, length);
    random.pick(&[0, 0, 0, 0, 0, 0, 1, within, within, length]).min(length)
}

/// The first job, the last one, one between, or the one that was drawn before.
fn any_job(random: &mut Random, jobs: usize, drawn: Option<usize>) -> usize {
    let middle = if jobs > 2 { random.between(1, jobs - 2) } else { 0 };
    random.pick(&[0, middle, jobs - 1, jobs - 1, drawn.unwrap_or(middle)])
}
