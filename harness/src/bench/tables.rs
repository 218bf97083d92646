//! Times a table of stretches read in one call, and as many calls of read. The table is
//! made before the clock runs, as a caller has it.

use super::{rows, shorten, ROUNDS};
use crate::library::{functions, prepared, read_prepared, Prepared, Told};
use model::entry::ENTRY_BYTES;
use model::table::Stretch;
use model::Outcome::{self, Made};

struct Table {
    cdm: Vec<u8>,
    cds: Vec<u8>,
    stretches: Vec<Stretch>,
    jobs: Prepared,
    out: Vec<u8>,
    counts: Vec<usize>,
    /// What each single call is lent.
    rooms: Vec<usize>,
}

impl Table {
    /// Stretches of the varied rows joined, with room for every column.
    fn ample() -> Table {
        let [cdm, cds] = rows::varied_recording();
        let stretches = rows::stretches(cdm.len());
        let rooms: Vec<_> = stretches.iter().map(|&[_, length, _]| ENTRY_BYTES * length).collect();
        Table {
            jobs: prepared(&stretches),
            out: vec![0; rooms.iter().sum()],
            counts: vec![0; stretches.len()],
            cdm,
            cds,
            stretches,
            rooms,
        }
    }

    /// The same with room for its lists alone.
    fn exact() -> Table {
        let mut table = Table::ample();
        let Made(entries) = table.by_library() else { unreachable!() };
        table.out.truncate(ENTRY_BYTES * entries);
        table.rooms = table.counts.iter().map(|count| ENTRY_BYTES * count).collect();
        table
    }

    fn columns(&self) -> usize {
        self.stretches.iter().map(|[_, length, _]| length).sum()
    }

    fn by_model(&mut self) -> Outcome {
        let rows = [&self.cdm[..], &self.cds[..]];
        model::read_all(rows, &self.stretches, &mut self.out, &mut self.counts)
    }

    fn by_library(&mut self) -> Outcome {
        let rows = [&self.cdm[..], &self.cds[..]];
        read_prepared(rows, &self.jobs, &mut self.out, &mut self.counts)
    }

    /// One list behind the other and the count of each, by calls of read.
    fn singly(&mut self) -> usize {
        let mut at = 0;
        for (job, &[first, length, opening]) in self.stretches.iter().enumerate() {
            let (cdm, cds) = (&self.cdm[first..first + length], &self.cds[first..first + length]);
            let end = self.out.len().min(at + self.rooms[job]);
            let Made(entries) = functions::read(cdm, cds, opening, &mut self.out[at..end]).told()
            else {
                unreachable!()
            };
            self.counts[job] = entries;
            at += ENTRY_BYTES * entries;
        }
        at
    }
}

/// Times both rooms.
pub fn bench() {
    for (row, mut table) in [("ample", Table::ample()), ("exact", Table::exact())] {
        let mut best = [f64::MAX; 3];
        for _ in 0..ROUNDS {
            shorten(&mut best[0], 1, &mut table, Table::by_model);
            shorten(&mut best[1], 1, &mut table, Table::by_library);
            shorten(&mut best[2], 1, &mut table, Table::singly);
        }
        let (what, columns) = (format!("read_all, {}", rows::STRETCHES), table.columns());
        let [model, library, singly] = best.map(|time| time / columns as f64);
        let (ratio, each) = (library / model, library / singly);
        println!(
            "{what:<16}{columns:>8}  {row:<8}{model:>10.2}{library:>10.2}{ratio:>12.2}{each:>12.2}"
        );
    }
}
