//! The indexing program: the files of the crates and of the examples that hold some of
//! its inputs, and the linked program on all of them and on texts from seeds. And what
//! the programs `card` and, of commands, `recordings` print.

mod card;
mod inputs;
mod preset;
mod recordings;

use crate::generate::Random;
use inputs::{calibrations, faulty_inputs, held, named, slow_memory, Input};
use std::fs;
use std::io::Write;
use std::path::{Path, PathBuf};
use std::process::{Command, Stdio};

impl Input {
    /// The files beside a program crate's sources; none where it would be empty.
    fn files(&self, root: &Path) -> Vec<(PathBuf, Vec<u8>)> {
        let folder = root.join("crates").join(&self.name);
        let args = self.opening.map_or(String::new(), |column| format!("{column}\n"));
        vec![
            (folder.join("stdin"), self.stdin.clone()),
            (folder.join("args"), args.into_bytes()),
            (folder.join("stdout"), self.report()),
        ]
    }

    /// What the linked program prints, the input written in pieces of any
    /// size, and the status that it ends with.
    fn given_to(&self, program: &str, random: &mut Random) -> (Vec<u8>, Option<i32>) {
        let mut child = Command::new(program)
            .args(self.opening.map(|column| column.to_string()))
            .stdin(Stdio::piped())
            .stdout(Stdio::piped())
            .spawn()
            .expect("the indexing program starts");
        let mut stdin = child.stdin.take().expect("a pipe");
        let mut rest = self.stdin.as_slice();
        while !rest.is_empty() {
            let any = random.between(1, 20_000);
            let (piece, behind) = rest.split_at(random.pick(&[1, 7, 4096, any]).min(rest.len()));
            // A program that has its answer need not read on.
            if stdin.write_all(piece).is_err() {
                break;
            }
            rest = behind;
        }
        drop(stdin);
        let ended = child.wait_with_output().expect("the indexing program ends");
        (ended.stdout, ended.status.code())
    }

    /// Whether the linked program prints what the model says and ends with 1
    /// after a refusal, with 0 after a list.
    fn agrees(&self, program: &str, random: &mut Random) -> bool {
        let report = self.report();
        let status = i32::from(report.starts_with(b"refused"));
        let (printed, ended) = self.given_to(program, random);
        if printed == report && ended == Some(status) {
            return true;
        }
        let Input { name, opening, stdin } = self;
        println!("DIFFERENCE, {name}, opening column {opening:?}, {} bytes:", stdin.len());
        println!("model:   status {status}, {}", String::from_utf8_lossy(&report));
        println!("program: status {ended:?}, {}", String::from_utf8_lossy(&printed));
        false
    }
}

/// The files of the indexing program's crates, what the card and the commands among the
/// recordings print, the recordings among the examples and what the preset prints.
fn files(root: &Path) -> Vec<(PathBuf, Vec<u8>)> {
    let card = (root.join("crates/card/stdout"), card::printed());
    let slow_memory = (root.join("examples/slow_memory.rows"), slow_memory().stdin);
    let [calibration, _] = calibrations();
    let calibration = (root.join("examples/calibration.rows"), calibration.stdin);
    let preset = (root.join("examples/preset.rows"), preset::recording().stdin);
    let example = (root.join("examples/preset.txt"), preset::printed());
    let recordings = recordings::printed(root);
    let others = [card, slow_memory, calibration, preset, example, recordings];
    held().iter().flat_map(|input| input.files(root)).chain(others).collect()
}

/// Writes these files.
pub fn write(root: &Path) -> bool {
    for (path, bytes) in files(root) {
        if bytes.is_empty() {
            let _ = fs::remove_file(&path);
        } else {
            fs::write(&path, bytes).expect("its folder is there");
        }
    }
    true
}

/// Whether these files are the model's, and the page on the check shows what the card
/// prints.
pub fn agree(root: &Path) -> bool {
    let files = files(root);
    let wrong: Vec<_> =
        files.iter().filter(|(path, bytes)| fs::read(path).unwrap_or_default() != *bytes).collect();
    wrong.iter().for_each(|(path, _)| println!("PROGRAM {} is not the model's", path.display()));
    let (all, wrong_ones) = (files.len(), wrong.len());
    println!("program crates and recordings: {all} files, {wrong_ones} not as the model has them");
    card::page_agrees(root) && wrong.is_empty()
}

/// Whether the linked program agrees with the model on the inputs with a name
/// and on the texts of so many seeds.
pub fn linked(program: &str, texts: u64) -> bool {
    let mut random = Random::from_seed(0);
    let inputs: Vec<_> = held().into_iter().chain(named()).chain(faulty_inputs()).collect();
    let good = inputs.iter().all(|input| input.agrees(program, &mut random))
        && (0..texts).all(|seed| {
            let mut random = Random::from_seed(seed);
            Input::from_seed(seed, &mut random).agrees(program, &mut random)
        });
    if good {
        let named = inputs.len();
        println!("indexing program: {named} inputs, {texts} texts from seed 0, no difference");
    }
    good
}
