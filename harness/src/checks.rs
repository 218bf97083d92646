//! What must hold of the model by itself.

use crate::compare::Left;
use crate::conditions::{commanded, has_its_bank, has_its_start, is_given_up, Commanded};
use crate::generate::Random;
use crate::job::{holding, Job};
use model::account::rest_after;
use model::entry::{
    column_in, Entry, Kind, ADDRESS, BANK, COLUMN, ENTRY_BYTES, ID, KIND, START, VALUE,
};
use model::frame::BANK_REGISTER;
use model::list::list;

pub fn must(holds: bool, what: &str) -> Result<(), String> {
    if holds {
        Ok(())
    } else {
        Err(what.to_string())
    }
}

/// Checks the model's outcome and the bytes it left.
pub fn check<J: Job>(case: &J, left: &Left<J>, seed: u64) -> Result<(), String> {
    let given = left.outcome.refusal();
    let first = case.given(&holding(case));
    must(given == first, "the refusal is the first whose condition holds")?;
    if given.is_some() {
        let mut lent = case.lent().into_iter().zip(left.case.lent());
        let untouched = lent.all(|(before, after)| before[..] == after[..]);
        must(untouched, "a refusal changes no lent byte")?;
    }
    case.check(&left.case, left.outcome, &mut Random::from_seed(!seed))
}

/// Every entry of a list's bytes carries the column of its frame's S.
pub fn starts(cdm: &[u8], list: &[u8]) -> Result<(), String> {
    match list.chunks(ENTRY_BYTES).find(|entry| !has_its_start(cdm, entry)) {
        None => Ok(()),
        Some(entry) => Err(format!("the start of {entry:?} is its frame's S")),
    }
}

/// At every `mute` of a list's bytes the master gives up unconfirmed after a 1.
pub fn gives_up(cdm: &[u8], cds: &[u8], list: &[u8]) -> Result<(), String> {
    match list.chunks(ENTRY_BYTES).find(|entry| !is_given_up(cdm, cds, entry)) {
        None => Ok(()),
        Some(entry) => Err(format!("the master gives up at {entry:?}")),
    }
}

/// Behind every `command` of a list's bytes stands what the bits of its frame say, and
/// nowhere else an entry of such a kind.
pub fn commands(cdm: &[u8], cds: &[u8], list: &[u8]) -> Result<(), String> {
    let mut wanted: Vec<Commanded> = Vec::new();
    for entry in list.chunks(ENTRY_BYTES).filter(|entry| matches!(entry[KIND], 4 | 17..=20)) {
        let told = (entry[KIND], column_in(&entry[COLUMN]), entry[ID], entry[VALUE]);
        must(entry[ADDRESS] == 0 && entry[BANK] == 0, "a command names no address")?;
        if entry[KIND] == 4 {
            must(wanted.is_empty(), &format!("{wanted:?} before {entry:?}"))?;
            wanted = commanded(cdm, cds, column_in(&entry[START]));
        } else {
            let next = if wanted.is_empty() { None } else { Some(wanted.remove(0)) };
            must(next == Some(told), &format!("{next:?}, not {entry:?}"))?;
        }
    }
    must(wanted.is_empty(), &format!("{wanted:?} at the end"))
}

/// Every entry of a list's bytes names the bank that those before it tell.
pub fn banks(list: &[u8]) -> Result<(), String> {
    let ends = (0..list.len()).step_by(ENTRY_BYTES);
    let entries = ends.map(|at| (&list[..at], &list[at..at + ENTRY_BYTES]));
    match entries.into_iter().find(|(before, entry)| !has_its_bank(before, entry)) {
        None => Ok(()),
        Some((_, entry)) => Err(format!("the bank of {entry:?} is the last one written")),
    }
}

/// A reader let in late gives exactly the entries after the first run of fourteen zeros
/// that it sees, in all but the bank.
pub fn late_opening(cdm: &[u8], cds: &[u8], random: &mut Random) -> Result<(), String> {
    let opening = random.between(0, cdm.len());
    let late = list(cdm, cds, opening);
    let expected: Vec<Entry> = match rest_after(cdm, opening) {
        None => Vec::new(),
        Some(rest) => {
            let whole = list(cdm, cds, 0);
            whole.into_iter().filter(|entry| entry.column > rest).collect()
        }
    };
    let bare =
        |entries: &[Entry]| -> Vec<Entry> { entries.iter().map(|entry| entry.bank(0)).collect() };
    must(bare(&late) == bare(&expected), &format!("late opening at {opening}"))?;
    late_banks(&late, &expected).map_err(|wrong| format!("late opening at {opening}: {wrong}"))
}

/// "And there too after a `written` of that ID's bank register in its own list."
fn late_banks(late: &[Entry], whole: &[Entry]) -> Result<(), String> {
    let mut is_written = [false; 8];
    for (late, whole) in late.iter().zip(whole) {
        if late.bank != whole.bank {
            let id = usize::from(late.id);
            must(!is_written[id], &format!("the bank of {late:?} is not {}", whole.bank))?;
            must(late.bank == 255, &format!("the bank of {late:?} is 255"))?;
        }
        if late.kind == Kind::Written && late.address == BANK_REGISTER {
            is_written[usize::from(late.id)] = true;
        }
    }
    Ok(())
}
