//! Runs model and library on equal copies and compares all they left.

use crate::checks::check;
use crate::job::Job;
use crate::jobs::{Calls, Model};
use crate::library::Library;
use model::Outcome::{self, Made};

/// What a call returned and left.
pub struct Left<J> {
    pub outcome: Outcome,
    pub case: J,
}

fn call<J: Job>(case: &J, calls: &impl Calls) -> Left<J> {
    let mut case = case.clone();
    let outcome = case.call(calls);
    Left { outcome, case }
}

/// The first lent byte that differs, or the first touched one outside.
fn first_byte<J: Job>(model: &J, library: &J) -> Option<String> {
    let after_both = model.lent().into_iter().zip(library.lent());
    for ((name, _), (wanted, got)) in J::LENT.iter().zip(after_both) {
        if let Some(byte) = (0..wanted.len()).find(|&byte| wanted[byte] != got[byte]) {
            let (wanted, got) = (wanted[byte], got[byte]);
            return Some(format!(
                "{name}[{byte}] is {wanted} after the model, {got} after the library"
            ));
        }
        if let Some(byte) = got.touched_guard() {
            return Some(format!("the library wrote outside {name}, at {name}[{byte}]"));
        }
    }
    None
}

/// The difference between model and library, if there is one.
fn difference<J: Job>(model: &Left<J>, library: &Left<J>) -> Option<String> {
    let byte = first_byte(&model.case, &library.case);
    if library.outcome == model.outcome && byte.is_none() {
        return None;
    }
    let bytes = byte.unwrap_or("all lent bytes are equal".to_string());
    let (wanted, got) = (model.outcome, library.outcome);
    Some(format!("the model says {wanted:?}, the library {got:?}; {bytes}"))
}

/// Compares one case; gives what the model returned and left.
pub fn compare<J: Job>(case: &J, seed: u64) -> Result<Left<J>, String> {
    let model = call(case, &Model);
    let library = call(case, &Library);
    if let Some(difference) = difference(&model, &library) {
        return Err(difference);
    }
    let by_itself = |who: &'static str| move |wrong| format!("the {who} by itself: {wrong}");
    check(case, &model, seed).map_err(by_itself("model"))?;
    case.check_further(&model.case, model.outcome, &Model).map_err(by_itself("model"))?;
    case.check_further(&model.case, model.outcome, &Library).map_err(by_itself("library"))?;
    Ok(model)
}

/// A case and what both made of it, for a person to read.
pub fn describe<J: Job>(case: &J) -> String {
    let mut text = String::new();
    for (name, number) in case.numbers() {
        text.push_str(&format!("  {name} = {number}\n"));
    }
    for ((name, lent_for), lent) in J::LENT.iter().zip(case.lent()) {
        text.push_str(&format!("  {name}, {} bytes: {}\n", lent.len(), lent_for.shown(lent)));
    }
    text.push_str(&format!("  model   says {:?}\n", call(case, &Model).outcome));
    text.push_str(&format!("  library says {:?}\n", call(case, &Library).outcome));
    let roomy = case.roomy();
    for (who, left) in [("model", call(&roomy, &Model)), ("library", call(&roomy, &Library))] {
        if let Made(made) = left.outcome {
            text.push_str(&left.case.shown(who, made));
        }
    }
    text
}
