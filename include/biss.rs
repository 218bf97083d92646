//! The calls of the library biss, safe: a slice brings its length, and Rust keeps a lent buffer apart from every other.
//! Include it as a module (`#[path = "..."] mod biss;`) and link `target/staticlib/libbiss.a`. What each call does is told in biss.h.

/// Why a call refused; then no lent byte has changed. It is shown in the words of the table in biss.h.
#[derive(Clone, Copy, PartialEq, Eq, Debug)]
pub enum Refusal {
    /// A number of the table in biss.h that tells nothing else.
    Number(u8),
    /// 13 to 17: what is wrong with a text, at this line, counted from 1, and this byte of it, counted from 0.
    InText { number: u8, line: usize, byte: usize },
    /// 20, and of a table of jobs 5, 7 and 8: the job that has it, as it stands in the table, counted from 0.
    OfJob { number: u8, job: usize },
}

impl Refusal {
    /// The number of the table in biss.h.
    pub fn number(self) -> u8 {
        match self {
            Refusal::Number(number)
            | Refusal::InText { number, .. }
            | Refusal::OfJob { number, .. } => number,
        }
    }

    /// The job of a table that has it, where it tells one.
    pub fn job(self) -> Option<usize> {
        match self {
            Refusal::OfJob { job, .. } => Some(job),
            Refusal::Number(_) | Refusal::InText { .. } => None,
        }
    }
}

impl std::fmt::Display for Refusal {
    fn fmt(&self, to: &mut std::fmt::Formatter) -> std::fmt::Result {
        match self {
            Refusal::Number(_) => {}
            Refusal::InText { line, byte, .. } => write!(to, "line {line}, byte {byte}: ")?,
            Refusal::OfJob { job, .. } => write!(to, "job {job}: ")?,
        }
        to.write_str(words(self.number()))
    }
}

impl std::error::Error for Refusal {}

/// The words of a number in the table in biss.h.
fn words(number: u8) -> &'static str {
    match number {
        1 => "more than 16 slaves",
        2 => "registers not 64 x (banks + 1) bytes a slave",
        3 => "rights not 64 x (banks + 1) bytes a slave",
        4 => "a right above 3",
        5 => "a row of more than 4,096 columns",
        6 => "two rows of different length",
        7 => "a row byte that is not 0 or 1",
        8 => "opening column greater than the length",
        9 => "the result needs more room than was lent",
        10 => "id over 7, address over 127, CMD over 3, count 0 or over 64, or address + count over 128",
        12 => "list length no multiple of 9, or a kind outside 1 to 20",
        13 => "a wrong byte in the header line",
        14 => "digit not 0 or 1",
        15 => "tab missing",
        16 => "line feed missing",
        17 => "the text ends inside a line",
        18 => "waits not one byte per slave",
        19 => "banks not one number of 1 to 8 per slave",
        20 => "a stretch outside the rows",
        21 => "counts not four per slave",
        32 => "counts not one per job",
        _ => "a number that the table does not have",
    }
}

/// The bytes of an entry.
pub const ENTRY_BYTES: usize = 9;

/// The most columns of a row, and of a job's stretch.
pub const MOST_COLUMNS: usize = 4096;

/// The bytes of the header of a list's text, and the most that the line of an entry has.
pub const LIST_HEADER_BYTES: usize = 41;
pub const LIST_LINE_BYTES: usize = 36;

/// The master zeros that stand before every start bit: a reader that opens at an entry's `start - REST` lists that entry again, but for
/// its bank.
pub const REST: usize = 14;

/// How many counts of executions a slave has: one for each CMD, 0 to 3.
pub const CMDS: usize = 4;

/// The columns of a built command that are its header alone, the first ones.
pub const COMMAND_HEADER: usize = 30;

/// The address of the bank register; the addresses below it show the bank that it names.
pub const BANK_REGISTER: u8 = 64;

/// The bank of an entry of an ID whose bank register was not yet written in the list.
pub const NO_BANK_YET: u8 = 255;

/// An entry of a list; `start` is the column of the start bit of its frame, `bank` that of an address below the bank register, else 0. Of a
/// command (kinds 4 and 17 to 20) `id` is CMD.
#[derive(Clone, Copy, PartialEq, Eq, Debug)]
pub struct Entry {
    pub kind: u8,
    pub column: usize,
    pub start: usize,
    pub id: u8,
    pub address: u8,
    pub bank: u8,
    pub value: u8,
}

impl Entry {
    /// The entry as it stands in a list.
    pub fn bytes(self) -> [u8; ENTRY_BYTES] {
        let [high, low] = (self.column as u16).to_be_bytes();
        let [start_high, start_low] = (self.start as u16).to_be_bytes();
        let Entry { kind, id, address, bank, value, .. } = self;
        [kind, high, low, start_high, start_low, id, address, bank, value]
    }
}

/// The entries of a list, as `read` makes it.
pub fn entries(list: &[u8]) -> impl Iterator<Item = Entry> + '_ {
    let column = |high: u8, low: u8| usize::from(u16::from_be_bytes([high, low]));
    list.chunks_exact(ENTRY_BYTES).map(move |entry| Entry {
        kind: entry[0],
        column: column(entry[1], entry[2]),
        start: column(entry[3], entry[4]),
        id: entry[5],
        address: entry[6],
        bank: entry[7],
        value: entry[8],
    })
}

/// How many columns, bytes or entries were made, or why none.
pub type Answer = Result<usize, Refusal>;

/// A job of a table: a stretch of a recording, by its first column and its length, and the column at which its reader opens, counted from
/// the stretch's first column.
#[repr(C)]
#[derive(Clone, Copy, PartialEq, Eq, Debug)]
pub struct Job {
    pub first: usize,
    pub length: usize,
    pub opening: usize,
}

mod calls {
    use super::Job;

    extern "C" {
        pub fn biss_build_read(
            id: u8,
            address: u8,
            count: usize,
            wait: u8,
            out: *mut u8,
            out_length: usize,
        ) -> u64;
        pub fn biss_build_write(
            id: u8,
            address: u8,
            bytes: *const u8,
            bytes_length: usize,
            wait: u8,
            out: *mut u8,
            out_length: usize,
        ) -> u64;
        pub fn biss_build_command(
            ids: u8,
            cmd: u8,
            execute: bool,
            out: *mut u8,
            out_length: usize,
        ) -> u64;
        pub fn biss_run(
            slaves: usize,
            banks: *const u8,
            banks_length: usize,
            rights: *const u8,
            rights_length: usize,
            waits: *const u8,
            waits_length: usize,
            registers: *mut u8,
            registers_length: usize,
            counts: *mut u32,
            count_places: usize,
            cdm: *const u8,
            cdm_length: usize,
            cds: *mut u8,
            cds_length: usize,
        ) -> u64;
        pub fn biss_read(
            cdm: *const u8,
            cdm_length: usize,
            cds: *const u8,
            cds_length: usize,
            opening: usize,
            out: *mut u8,
            out_length: usize,
        ) -> u64;
        pub fn biss_read_all(
            cdm: *const u8,
            cdm_length: usize,
            cds: *const u8,
            cds_length: usize,
            jobs: *const Job,
            job_count: usize,
            out: *mut u8,
            out_length: usize,
            counts: *mut usize,
            count_places: usize,
        ) -> u64;
        pub fn biss_rows_to_text(
            cdm: *const u8,
            cdm_length: usize,
            cds: *const u8,
            cds_length: usize,
            out: *mut u8,
            out_length: usize,
        ) -> u64;
        pub fn biss_text_to_rows(
            text: *const u8,
            text_length: usize,
            cdm: *mut u8,
            cdm_length: usize,
            cds: *mut u8,
            cds_length: usize,
        ) -> u64;
        pub fn biss_list_to_text(
            list: *const u8,
            list_length: usize,
            out: *mut u8,
            out_length: usize,
        ) -> u64;
        pub fn biss_channel_of(id: u8, slaves: usize) -> u64;
    }
}

/// The place of a slave's process data, from 1, next to the master. It is no slave ID, which counts from the far end.
#[derive(Clone, Copy, PartialEq, Eq, Debug)]
pub struct ChannelPlace(pub u8);

/// What a call's code says. Without bit 63 it is how many were made; with it bits 5 to 0 are the number of a refusal. With bit 62 too,
/// bits 61 to 6 are its job; else bits 61 to 9 are its line, 0 where it tells none, and bits 8 to 6 the byte in that line.
pub fn answer(coded: u64) -> Answer {
    if coded >> 63 == 0 {
        return Ok(coded as usize);
    }
    let number = (coded & 0x3F) as u8;
    if coded >> 62 & 1 == 1 {
        let job = (coded >> 6 & ((1 << 56) - 1)) as usize;
        return Err(Refusal::OfJob { number, job });
    }
    let byte = (coded >> 6 & 7) as usize;
    let line = (coded >> 9 & ((1 << 53) - 1)) as usize;
    Err(if line == 0 { Refusal::Number(number) } else { Refusal::InText { number, line, byte } })
}

pub fn build_read(id: u8, address: u8, count: usize, wait: u8, out: &mut [u8]) -> Answer {
    answer(unsafe { calls::biss_build_read(id, address, count, wait, out.as_mut_ptr(), out.len()) })
}

pub fn build_write(id: u8, address: u8, bytes: &[u8], wait: u8, out: &mut [u8]) -> Answer {
    answer(unsafe {
        calls::biss_build_write(
            id,
            address,
            bytes.as_ptr(),
            bytes.len(),
            wait,
            out.as_mut_ptr(),
            out.len(),
        )
    })
}

/// The row goes on to EX, which is 1 if `execute`; its first `COMMAND_HEADER` columns are the header alone.
pub fn build_command(ids: u8, cmd: u8, execute: bool, out: &mut [u8]) -> Answer {
    answer(unsafe { calls::biss_build_command(ids, cmd, execute, out.as_mut_ptr(), out.len()) })
}

/// `counts` becomes how often each slave executed each command in this run: `CMDS` a slave, the far slave first.
#[allow(clippy::too_many_arguments)]
pub fn run(
    slaves: usize,
    banks: &[u8],
    rights: &[u8],
    waits: &[u8],
    registers: &mut [u8],
    counts: &mut [u32],
    cdm: &[u8],
    cds: &mut [u8],
) -> Answer {
    answer(unsafe {
        calls::biss_run(
            slaves,
            banks.as_ptr(),
            banks.len(),
            rights.as_ptr(),
            rights.len(),
            waits.as_ptr(),
            waits.len(),
            registers.as_mut_ptr(),
            registers.len(),
            counts.as_mut_ptr(),
            counts.len(),
            cdm.as_ptr(),
            cdm.len(),
            cds.as_mut_ptr(),
            cds.len(),
        )
    })
}

pub fn read(cdm: &[u8], cds: &[u8], opening: usize, out: &mut [u8]) -> Answer {
    answer(unsafe {
        calls::biss_read(
            cdm.as_ptr(),
            cdm.len(),
            cds.as_ptr(),
            cds.len(),
            opening,
            out.as_mut_ptr(),
            out.len(),
        )
    })
}

/// Lists every job of a table into the lent buffers, one list behind the other, and the count of each.
pub fn read_all_into(
    cdm: &[u8],
    cds: &[u8],
    jobs: &[Job],
    out: &mut [u8],
    counts: &mut [usize],
) -> Answer {
    answer(unsafe {
        calls::biss_read_all(
            cdm.as_ptr(),
            cdm.len(),
            cds.as_ptr(),
            cds.len(),
            jobs.as_ptr(),
            jobs.len(),
            out.as_mut_ptr(),
            out.len(),
            counts.as_mut_ptr(),
            counts.len(),
        )
    })
}

/// The most bytes that `read_all` lends at first: room for as many entries as 1,864,135 columns can have.
const FIRST_ROOM: usize = 1 << 24;

/// The list of every job of a table, in its order. It is refused by 6, 20, 5, 7 and 8 alone.
pub fn read_all(cdm: &[u8], cds: &[u8], jobs: &[Job]) -> Result<Vec<Vec<Entry>>, Refusal> {
    // Room for every column is always enough. A stretch that is longer than a row may be is refused, whatever its length.
    let columns = |job: &Job| job.length.min(MOST_COLUMNS);
    let most = jobs.iter().map(|job| ENTRY_BYTES * columns(job)).fold(0, usize::saturating_add);
    let mut room = most.min(FIRST_ROOM);
    let mut counts = vec![0; jobs.len()];
    loop {
        let mut out = vec![0; room];
        match read_all_into(cdm, cds, jobs, &mut out, &mut counts) {
            Err(Refusal::Number(9)) if room < most => room = room.saturating_mul(2).min(most),
            Err(refusal) => return Err(refusal),
            Ok(_) => return Ok(lists(&out, &counts)),
        }
    }
}

/// The lists of so many entries each that stand one behind the other.
fn lists(out: &[u8], counts: &[usize]) -> Vec<Vec<Entry>> {
    let mut listed = entries(out);
    counts.iter().map(|&count| listed.by_ref().take(count).collect()).collect()
}

pub fn rows_to_text(cdm: &[u8], cds: &[u8], out: &mut [u8]) -> Answer {
    answer(unsafe {
        calls::biss_rows_to_text(
            cdm.as_ptr(),
            cdm.len(),
            cds.as_ptr(),
            cds.len(),
            out.as_mut_ptr(),
            out.len(),
        )
    })
}

pub fn text_to_rows(text: &[u8], cdm: &mut [u8], cds: &mut [u8]) -> Answer {
    answer(unsafe {
        calls::biss_text_to_rows(
            text.as_ptr(),
            text.len(),
            cdm.as_mut_ptr(),
            cdm.len(),
            cds.as_mut_ptr(),
            cds.len(),
        )
    })
}

pub fn list_to_text(list: &[u8], out: &mut [u8]) -> Answer {
    answer(unsafe {
        calls::biss_list_to_text(list.as_ptr(), list.len(), out.as_mut_ptr(), out.len())
    })
}

/// `None` where the chain has no slave of that ID.
pub fn channel_of(id: u8, slaves: usize) -> Result<Option<ChannelPlace>, Refusal> {
    let place = answer(unsafe { calls::biss_channel_of(id, slaves) })?;
    Ok((place != 0).then_some(ChannelPlace(place as u8)))
}
