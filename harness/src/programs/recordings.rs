//! The commands among the recordings of the program `recordings`: each kind of a command's
//! entries twice at least. The other recordings are the program's own.

use model::list::list;
use model::{build_command, run, Outcome::Made};
use std::fs;
use std::path::{Path, PathBuf};

const STDOUT: &str = "crates/recordings/stdout";
/// The titles around the commands: how theirs begin, and that of the recording behind them.
const FIRST: &str = "\na broadcast of CMD 2";
const BEHIND: &str = "\nR = W = 1 in a read\n";

/// A built command, fourteen zeros behind it, and the answers of one slave; then the
/// answers in these columns are turned.
struct Commanded {
    title: &'static str,
    ids: u8,
    cmd: u8,
    execute: bool,
    turned: &'static [usize],
}

const fn commanded(
    title: &'static str,
    [ids, cmd]: [u8; 2],
    execute: bool,
    turned: &'static [usize],
) -> Commanded {
    Commanded { title, ids, cmd, execute, turned }
}

/// The acknowledgements of ID 0 and of ID 1 stand in the columns 30 and 31.
const COMMANDS: [Commanded; 8] = [
    commanded("a broadcast of CMD 2, executed", [0, 2], true, &[]),
    commanded("CMD 1 for ID 0, whose bit is sent first, executed", [0x80, 1], true, &[]),
    commanded("a broadcast of CMD 2, withheld", [0, 2], false, &[]),
    commanded("CMD 1 for ID 0, withheld", [0x80, 1], false, &[]),
    commanded("ID 0 does not acknowledge, and EX is sent", [0x80, 1], true, &[30]),
    commanded("ID 0 acknowledges in the column of ID 1", [0x80, 1], true, &[30, 31]),
    commanded("an ID that is not locked acknowledges", [0xC0, 3], true, &[31]),
    commanded("ID 0 does not acknowledge, and EX is withheld", [0x80, 1], false, &[30]),
];

impl Commanded {
    /// Its title and an entry a line, as the program prints them.
    fn printed(&self) -> String {
        let mut cdm = vec![0; 39];
        let Made(columns) = build_command(self.ids, self.cmd, self.execute, &mut cdm) else {
            unreachable!("CMD is below 4")
        };
        cdm.truncate(columns);
        cdm.resize(columns + 14, 0);
        let mut cds = vec![0; cdm.len()];
        run(1, &[1], &[3; 128], &[0], &mut [0; 128], &mut [0; 4], &cdm, &mut cds);
        self.turned.iter().for_each(|&column| cds[column] ^= 1);
        let mut text = format!("{}\n", self.title);
        for e in list(&cdm, &cds, 0) {
            let fields = [e.id, e.address, e.bank, e.value].map(|field| field.to_string());
            text += &format!("{} {} {} {}\n", e.kind as u8, e.column, e.start, fields.join(" "));
        }
        text
    }
}

/// What the program prints, the commands as the model has them.
pub fn printed(root: &Path) -> (PathBuf, Vec<u8>) {
    let path = root.join(STDOUT);
    let stored = fs::read_to_string(&path).unwrap_or_default();
    let commands: String = COMMANDS.iter().map(Commanded::printed).collect();
    let text = match (stored.find(FIRST), stored.find(BEHIND)) {
        (Some(first), Some(behind)) if first < behind => {
            format!("{}\n{commands}{}", &stored[..first], &stored[behind + 1..])
        }
        _ => commands,
    };
    (path, text.into_bytes())
}
