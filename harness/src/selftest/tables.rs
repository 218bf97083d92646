//! Tables of jobs, worked by hand: stretches of two frames, and refusals in their order.

use super::{two_frames, Card};
use model::entry::{column_in, COLUMN, ENTRY_BYTES, START};
use model::read_all;
use model::table::Stretch;
use model::Outcome::{self, Made, OfJob, Refused};

pub fn tried(card: &mut Card) {
    stretches(card);
    rooms(card);
    told(card);
    orders(card);
}

/// The second frame counts from its own stretch, whichever columns lie before it.
fn stretches(card: &mut Card) {
    let (cdm, cds) = two_frames();
    let jobs = [[46, 47, 0], [0, 93, 46], [93, 0, 0], [47, 46, 0], [0, 45, 0], [0, 93, 0]];
    let (mut out, mut counts) = ([9; 200], [9; 6]);
    let outcome = read_all([&cdm, &cds], &jobs, &mut out, &mut counts);
    card.same("six stretches", (outcome, counts), (Made(14), [3, 3, 0, 0, 2, 6]));
    let places = |entry: &[u8]| (column_in(&entry[COLUMN]), column_in(&entry[START]));
    let got: Vec<(usize, usize)> = out[..126].chunks(ENTRY_BYTES).map(places).collect();
    let [first, second] = [[(23, 14), (44, 14), (46, 14)], [(69, 60), (90, 60), (92, 60)]];
    let wanted = [&first[..], &second, &first[..2], &first, &second].concat();
    card.same("their columns and starts", got, wanted);
    card.same("bytes past the lists", out[126..].to_vec(), vec![9; 74]);
}

fn rooms(card: &mut Card) {
    let (cdm, cds) = two_frames();
    let lent = |room: usize| {
        let (mut out, mut counts) = (vec![9; room], [9; 2]);
        let jobs = [[0, 47, 0], [46, 47, 0]];
        let outcome = read_all([&cdm, &cds], &jobs, &mut out, &mut counts);
        (outcome, out.iter().all(|&byte| byte == 9), counts)
    };
    card.same("room for two lists", lent(54), (Made(6), false, [3, 3]));
    card.same("a byte short", lent(53), (Refused(9), true, [9, 9]));
    card.same("room for the first", lent(27), (Refused(9), true, [9, 9]));
    let nothing = read_all([&[], &[]], &[], &mut [], &mut []);
    card.same("an empty table", nothing, Made(0));
}

/// What a table over 5,000 zeros is told, whose column 100 holds a 2 on one line.
fn over_zeros(jobs: &[Stretch]) -> Outcome {
    let (mut cdm, cds) = ([0; 5000], [0; 5000]);
    cdm[100] = 2;
    read_all([&cdm, &cds], jobs, &mut [], &mut vec![9; jobs.len()])
}

fn of_job(number: u8, job: usize) -> Outcome {
    OfJob { number, job }
}

fn told(card: &mut Card) {
    const TOP: usize = usize::MAX;
    let good = [0, 100, 0];
    let tables: [(&[Stretch], Outcome); 21] = [
        (&[[0, 100, 100], [101, 4096, 0], [904, 4096, 0], [5000, 0, 0]], Made(0)),
        (&[[905, 4096, 0]], of_job(20, 0)),
        (&[good, [5001, 0, 0]], of_job(20, 1)),
        (&[good, [5000, 1, 0], good], of_job(20, 1)),
        (&[[TOP, 0, 0]], of_job(20, 0)),
        (&[[TOP, 1, 0]], of_job(20, 0)),
        (&[[1, TOP, 0]], of_job(20, 0)),
        (&[[4999, TOP - 4900, 0]], of_job(20, 0)),
        (&[good, good, [101, 4097, 0]], of_job(5, 2)),
        (&[[100, 1, 0]], of_job(7, 0)),
        (&[[99, 1, 0], [101, 1, 0], [0, 101, 0], [100, 1, 0]], of_job(7, 2)),
        (&[good, [0, 100, 101]], of_job(8, 1)),
        (&[[2000, 100, 2000]], of_job(8, 0)),
        (&[[0, 0, 0], [0, 0, 1]], of_job(8, 1)),
        (&[[0, 4097, 4098]], of_job(5, 0)),
        (&[[100, 1, 2]], of_job(7, 0)),
        (&[[0, 1, 2], [100, 1, 0], [0, 5000, 0]], of_job(8, 0)),
        (&[[100, 1, 0], [0, 5000, 0], [0, 1, 2]], of_job(7, 0)),
        (&[[0, 5000, 0], [5000, 1, 0]], of_job(20, 1)),
        (&[[0, 1, 2], good, [5001, 0, 0], [TOP, 1, 0]], of_job(20, 2)),
        (&[[0, 5000, 0], [100, 1, 0]], of_job(5, 0)),
    ];
    for (jobs, wanted) in tables {
        card.same(&format!("a table of {jobs:?}"), over_zeros(jobs), wanted);
    }
}

/// 32 before 6, both before 20, and 9 behind 8.
fn orders(card: &mut Card) {
    let (cdm, cds) = two_frames();
    let short = &cds[..92];
    let outside = [[94, 0, 0]];
    let refused = |cds: &[u8], jobs: &[Stretch], counts: usize| {
        read_all([&cdm, cds], jobs, &mut [], &mut vec![9; counts])
    };
    card.same("no count", refused(short, &outside, 0), Refused(32));
    card.same("a count too many", refused(&cds, &[], 1), Refused(32));
    card.same("rows of two lengths", refused(short, &outside, 1), Refused(6));
    card.same("rows without a job", refused(short, &[], 0), Refused(6));
    card.same("8 behind a list", refused(&cds, &[[0, 93, 0], [0, 1, 2]], 2), of_job(8, 1));
    card.same("9 at last", refused(&cds, &[[0, 93, 0], [0, 1, 1]], 2), Refused(9));
}
