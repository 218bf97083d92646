//! The counts as a table.

use super::banks::{BANKS, LATE, NAMED, PASSED_OVER, SITUATIONS};
use super::commands::{Commanded, FATES, FORMS, HEADER_CUTS, ORDERS, SLAVES};
use super::stretches::TABLED;
use super::told_jobs::{Told, EDGES, HOLDING, PLACES, SIDES};
use super::waits::{told, BYTES, REPEATED, WAITS};
use super::ways::{coded, LISTED};
use super::{kind_name, kinds, Count, Counts, Part, LOCKS, PARTS};
use crate::case::Listed;
use crate::conditions::OF_JOB;
use crate::generate::recordings::{Answers, ANSWERS};
use crate::generate::texts::Faults;
use crate::jobs::JOBS;
use model::frame::CODES;
use model::phase::PHASES;
use std::ops::RangeInclusive;

/// The bytes of the longest line of a text, the header.
const LINE: RangeInclusive<usize> = 0..=7;

/// A row of a table: its name, and cells of ten.
fn row(name: &str, cells: Vec<String>) -> String {
    let cells: String = cells.iter().map(|cell| format!("{cell:>10}")).collect();
    format!("{name:<23}{cells}\n")
}

/// Six to a line.
fn lines(all: Vec<String>) -> String {
    all.chunks(6).map(|some| format!("   {}\n", some.join(", "))).collect()
}

fn joined(counts: impl Iterator<Item = u64>) -> String {
    counts.map(|count| count.to_string()).collect::<Vec<_>>().join(" ")
}

fn code(cmd: u8) -> String {
    format!("CMD {cmd}")
}

impl Counts {
    pub fn table(&self) -> String {
        let jobs: String = JOBS.iter().map(|job| self.table_of_job(job)).collect();
        let machines = self.table_of_phases() + &self.table_of_waits() + &self.table_of_banks();
        let machines = machines + &self.table_of_commands() + &self.table_of_listed_commands();
        let tables = self.table_of_stretches() + &self.table_of_told_jobs();
        self.table_of_entries() + &machines + &self.table_of_faults() + &tables + &jobs
    }

    fn table_of_entries(&self) -> String {
        let row = |name: &str, count: &dyn Fn(Answers) -> Count, more: &str| {
            let [honest, damaged, random] = ANSWERS.map(|answers| self.of(count(answers)));
            format!("{name:<16}{honest:>10}{damaged:>10}{random:>10}{more}\n")
        };
        let mut text = format!(
            "{:<16}{:>10}{:>10}{:>10}{:>10}{:>10}\n",
            "entries", "honest", "damaged", "random", "printed", "reopened"
        );
        for kind in kinds() {
            let name = format!("{kind:>2} {}", kind_name(kind));
            let more = [Count::Printed(kind), Count::Reopened(kind)];
            let more = more.map(|count| format!("{:>10}", self.of(count))).concat();
            text += &row(&name, &|answers| Count::Entry(answers, kind), &more);
        }
        text += &row("   odd at 127", &Count::OddAt127, "");
        text += &row("   odd at 64th", &Count::OddAt64th, "");
        for value in LOCKS {
            text += &row(&format!("   lock {value}"), &|answers| Count::Lock(answers, value), "");
        }
        let late = self.of(Count::ReopenedLate);
        let past_others = self.of(Count::ReopenedPastOthers);
        text + &format!("   reopened: {late} of late lists, {past_others} past other frames\n")
    }

    fn table_of_phases(&self) -> String {
        let mut text = format!("\n{:<16}{:>10}{:>10}\n", "phases", "slave", "reader");
        for phase in PHASES {
            let slave = self.of(Count::SlaveAt(phase));
            let reader = self.of(Count::ReaderAt(phase));
            text += &format!("{:<16}{slave:>10}{reader:>10}\n", format!("   {phase:?}"));
        }
        text
    }

    fn table_of_waits(&self) -> String {
        let times = |count| self.of(count).to_string();
        let mut text = format!("\n{}", row("waits", WAITS.map(told).into()));
        for (name, is_writing) in [("read", false), ("write", true)] {
            let confirmed = WAITS.map(|wait| times(Count::Confirmed(is_writing, wait)));
            let given_up = WAITS.map(|wait| times(Count::GivenUp(is_writing, wait)));
            text += &row(&format!("   {name} confirmed"), confirmed.into());
            text += &row(&format!("   {name} given up"), given_up.into());
        }
        let kinds = BYTES.map(|kind| kind as u8);
        text += &row("master repeats", kinds.map(|kind| kind_name(kind).to_string()).into());
        for (repeats, _) in REPEATED {
            let became = kinds.map(|kind| times(Count::Repeated(repeats, kind)));
            text += &row(&format!("   {repeats:?}"), became.into());
        }
        text
    }

    /// Of a bank that no slave with so few has, a dash.
    fn table_of_banks(&self) -> String {
        let times = |count| self.of(count).to_string();
        let mut text =
            format!("\n{}", row("banks", BANKS.map(|banks| banks.to_string()).collect()));
        let by_banks = |name: &str, count: &dyn Fn(u8) -> Count| {
            row(name, BANKS.map(|banks| self.of_or_dash(count(banks))).collect())
        };
        text += &by_banks("   starts held", &|banks| Count::StartsAt(banks, true));
        text += &by_banks("   starts not held", &|banks| Count::StartsAt(banks, false));
        for bank in 0..*BANKS.end() {
            let [reads, writes] = [false, true];
            text += &by_banks(&format!("   reads in {bank}"), &|of| Count::InBank(reads, of, bank));
            text +=
                &by_banks(&format!("   writes in {bank}"), &|of| Count::InBank(writes, of, bank));
        }
        for next in BANKS {
            text +=
                &by_banks(&format!("   next to {next}"), &|banks| Count::Neighbours(banks, next));
        }
        text += &row("accesses met", vec!["reads".to_string(), "writes".to_string()]);
        for (met, _) in SITUATIONS {
            let by = [false, true].map(|writing| self.of_or_dash(Count::AtBanks(met, writing)));
            text += &row(&format!("   {met:?}"), by.into());
        }
        text += &row("bank of an entry", NAMED.map(|named| format!("{named:?}")).into());
        for kind in kinds() {
            let by = NAMED.map(|named| self.of_or_dash(Count::Named(kind, named)));
            text += &row(&format!("   {}", kind_name(kind)), by.into());
        }
        let passed_over = PASSED_OVER.map(|kind| kind as u8);
        text += &row("passed over", passed_over.map(|kind| kind_name(kind).to_string()).into());
        text += &row("", passed_over.map(|kind| times(Count::PassedOver(kind))).into());
        text += &row("opened late", LATE.map(|bank| format!("{bank:?}")).into());
        text + &row("", LATE.map(|bank| times(Count::Late(bank))).into())
    }

    /// How often it came up, a dash where it did not.
    fn of_or_dash(&self, count: Count) -> String {
        match self.of(count) {
            0 => "-".to_string(),
            times => times.to_string(),
        }
    }

    fn table_of_commands(&self) -> String {
        let times = |met| self.of_command(met).to_string();
        let codes = 0..CODES as u8;
        let mut text = format!("\n{}", row("commands", codes.clone().map(code).collect()));
        for form in FORMS {
            for fate in FATES {
                let cells = codes.clone().map(|cmd| times(Commanded::Became(form, cmd, fate)));
                text += &row(&format!("   {form:?} {fate:?}"), cells.collect());
            }
            for slave in 0..form.slaves() {
                let cells = codes.clone().map(|cmd| times(Commanded::CountedFor(form, slave, cmd)));
                text += &row(&format!("   {form:?} for {slave}"), cells.collect());
            }
        }
        let header = HEADER_CUTS.map(|column| self.of_command(Commanded::Cut(None, column)));
        text += &format!("   cut in the header {}\n", joined(header));
        for form in FORMS {
            let cut = form.cuts().map(|column| self.of_command(Commanded::Cut(Some(form), column)));
            let slaves = SLAVES.map(|slaves| self.of_command(Commanded::ExecutedBy(form, slaves)));
            text += &format!("   {form:?} cut behind it {}\n", joined(cut));
            text += &format!("   {form:?}, 0 to 16 slaves {}\n", joined(slaves));
        }
        text + &lines(
            ORDERS
                .map(|met| format!("{met:?} {}", self.of_command(Commanded::Ordered(met))))
                .into(),
        )
    }

    fn table_of_listed_commands(&self) -> String {
        let codes = 0..CODES as u8;
        let mut text = row("listed", codes.clone().map(code).collect());
        for answers in ANSWERS {
            for &kind in coded(answers) {
                let times =
                    |cmd| self.of_command(Commanded::Coded(answers, kind as u8, cmd)).to_string();
                let name = format!("   {answers:?} {}", kind_name(kind as u8));
                text += &row(&name, codes.clone().map(times).collect());
            }
        }
        for (kind, ways) in LISTED {
            let kind = kind as u8;
            let way = |&way| format!("{way:?} {}", self.of_command(Commanded::Listed(kind, way)));
            text += &format!("   {}\n{}", kind_name(kind), lines(ways.iter().map(way).collect()));
        }
        text
    }

    fn table_of_faults(&self) -> String {
        let row = |name: &str, cell: &dyn Fn(usize) -> String| {
            let cells: String = LINE.map(|byte| format!("{:>7}", cell(byte))).collect();
            format!("{name:<16}{cells}\n")
        };
        let mut text = format!("\n{}", row("faults at byte", &|byte| byte.to_string()));
        let numbers =
            |(part, faults): (Part, Faults)| faults.iter().map(move |fault| (part, fault.0));
        for (part, number) in PARTS.into_iter().flat_map(numbers) {
            let name = format!("   {part:?} {number}");
            text += &row(&name, &|byte| self.of_or_dash(Count::Fault(part, number, byte)));
        }
        text
    }

    fn table_of_stretches(&self) -> String {
        let met = TABLED.iter().map(|&met| format!("{met:?} {}", self.of(Count::Table(met))));
        let edges =
            EDGES.map(|edge| format!("{edge:?} {}", self.of(Count::Told(Told::Edge(edge)))));
        let [met, edges] = [lines(met.collect()), lines(edges.into())];
        format!("\ntables\n{met}tables just refused\n{edges}")
    }

    /// Of a job that cannot stand there, a dash.
    fn table_of_told_jobs(&self) -> String {
        let places = PLACES.map(|place| format!("{place:?}"));
        let sides = SIDES.map(|side| format!("{side:?}"));
        let mut text = row("told, and of a job", [places, sides].concat());
        let times = |told| self.of_or_dash(Count::Told(told));
        for number in OF_JOB {
            let alone = PLACES.map(|place| times(Told::Alone(number, place)));
            text += &row(&format!("   {number} alone"), alone.into());
        }
        for (told, number, ..) in HOLDING {
            let places = PLACES.map(|place| times(Told::Holding(told, number, place)));
            let sides = SIDES.map(|side| times(Told::Beside(told, number, side)));
            text += &row(&format!("   {told}, {number}"), [places, sides].concat());
        }
        text
    }

    fn table_of_job(&self, job: &Listed) -> String {
        let name = job.name;
        let mut text = format!("\n{name:<14} made {}\n", self.of(Count::Made(name)));
        for (number, later) in (job.refusals)() {
            let all = self.of(Count::Refused(name, number));
            let alone = self.of(Count::Alone(name, number));
            text += &format!("  refused {number:>2} {all:>7}   alone {alone:>6}");
            for other in later {
                let with = self.of(Count::With(name, number, other));
                text += &format!("   with {other} {with:>5}");
            }
            text += "\n";
        }
        let marked = |mark: &&'static str| format!("{mark} {}", self.of(Count::Marked(name, mark)));
        for marks in (job.marks)().chunks(6) {
            let counts: Vec<String> = marks.iter().map(marked).collect();
            text += &format!("  {}\n", counts.join(", "));
        }
        text
    }
}
