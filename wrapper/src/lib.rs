//! The labelled sheet machine, for Rust programs: the proved engines behind safe functions. docs/MANUAL.md describes it.
//!
//! [`Machine`] owns all memory and is the easy way; [`plain`] and [`tagged`] run on memory that the caller lends;
//! [`page`] makes a page of a job. [`Clearances`] say which owners' data each page may show. A start that breaks a limit
//! is a [`Refusal`] and changes nothing; any other run ends with a [`Stop`]. [`assemble`] makes a sheet of a text,
//! [`list`] a text of a sheet.

mod answer;
mod clearances;
mod machine;
pub mod sys;
mod text;

pub use answer::{Refusal, Report, Space, Stop};
pub use clearances::Clearances;
pub use machine::{Atom, Entry, Kind, Line, Machine};
pub use text::{assemble, assemble_into, assemble_raw, list, list_into, list_raw, SHEET_LIMIT, TEXT_LIMIT};

/// Pages of a run: their numbers are 0 to 15.
pub const PAGE_COUNT: usize = sys::PAGE_COUNT;

/// Bytes of the longest page.
pub const PAGE_LIMIT: usize = sys::PAGE_LIMIT;

/// The words of a rule memory: code, P, L1, L2, L3, new place label, result label.
pub const RULE_MEMORY_WORDS: usize = 7;

/// The standard rules as a table. OutputTo and CallN have none of their own: they are under Output's and Call's.
#[rustfmt::skip]
pub const STANDARD_TABLE: [u8; 60] = [
    0x17, 0x11, 0x15, 0x12, 0x13,                                     // Add
    0x17, 0x11, 0x15, 0x12, 0x13,                                     // Sub
    0x17, 0x11, 0x10,                                                 // Pop
    0x17, 0x11, 0x15, 0x12, 0x11,                                     // Output
    0x17, 0x11, 0x10,                                                 // Push
    0x17, 0x11, 0x15, 0x12, 0x13,                                     // Load
    0x16, 0x15, 0x12, 0x11, 0x14, 0x11, 0x15, 0x15, 0x12, 0x13, 0x11, // Store
    0x17, 0x15, 0x12, 0x11, 0x10,                                     // Jump
    0x17, 0x15, 0x12, 0x11, 0x10,                                     // Bnz
    0x17, 0x15, 0x12, 0x11, 0x11,                                     // Call
    0x17, 0x12, 0x10,                                                 // Ret
    0x17, 0x13, 0x15, 0x12, 0x11,                                     // RetV
];

/// Memory lent to a run, as `include/luvrodan.h` describes it.
#[derive(Debug)]
pub struct Lent<'a> {
    /// The cells' numbers and labels, two runs of one length.
    pub values: &'a mut [i64],
    pub labels: &'a mut [i64],
    /// Two words for each command of the sheet.
    pub program: &'a mut [i64],
    /// 256 entries of three words.
    pub stack: &'a mut [i64],
    /// The lines' numbers, labels, kinds ([`sys::LINE_NUMBER`], [`sys::LINE_END`]) and pages; the shortest run sets how
    /// many fit, the end line included.
    pub numbers: &'a mut [i64],
    pub line_labels: &'a mut [i64],
    pub kinds: &'a mut [i64],
    pub pages: &'a mut [i64],
}

/// What the tag engine is lent besides.
#[derive(Debug)]
pub struct Tags<'a> {
    pub table: &'a [u8],
    /// Seven words; zeros mean empty.
    pub rule_memory: &'a mut [i64],
    /// Two words for each of the [`handler_count`] kernel commands.
    pub handler: &'a mut [i64],
}

/// Runs a sheet under the standard rules.
pub fn plain(sheet: &[u8], lent: Lent, clearances: &Clearances, fuel: u64) -> Result<Report, Refusal> {
    plain_raw(sheet, lent, clearances.words(), fuel).named()
}

/// Runs a sheet on the tag engine, under the rules of a table.
pub fn tagged(
    sheet: &[u8],
    lent: Lent,
    tags: Tags,
    clearances: &Clearances,
    fuel: u64,
) -> Result<Report, Refusal> {
    tagged_raw(sheet, lent, tags, clearances.words(), fuel).named()
}

/// [`plain`] with the clearances' words as the C interface takes them, and the answer's as it gives them.
pub fn plain_raw(sheet: &[u8], lent: Lent, clearances: &[i64], fuel: u64) -> sys::RawResult {
    // SAFETY: each pointer and length is of one slice; the exclusive ones cannot overlap.
    unsafe {
        sys::luvrodan_plain(
            sheet.as_ptr(),
            sheet.len(),
            lent.values.as_mut_ptr(),
            lent.values.len(),
            lent.labels.as_mut_ptr(),
            lent.labels.len(),
            clearances.as_ptr(),
            clearances.len(),
            lent.program.as_mut_ptr(),
            lent.program.len(),
            lent.stack.as_mut_ptr(),
            lent.stack.len(),
            lent.numbers.as_mut_ptr(),
            lent.numbers.len(),
            lent.line_labels.as_mut_ptr(),
            lent.line_labels.len(),
            lent.kinds.as_mut_ptr(),
            lent.kinds.len(),
            lent.pages.as_mut_ptr(),
            lent.pages.len(),
            fuel,
        )
    }
}

/// [`tagged`] with the clearances' words as the C interface takes them, and the answer's as it gives them.
pub fn tagged_raw(sheet: &[u8], lent: Lent, tags: Tags, clearances: &[i64], fuel: u64) -> sys::RawResult {
    // SAFETY: as in `plain_raw`.
    unsafe {
        sys::luvrodan_tagged(
            sheet.as_ptr(),
            sheet.len(),
            lent.values.as_mut_ptr(),
            lent.values.len(),
            lent.labels.as_mut_ptr(),
            lent.labels.len(),
            clearances.as_ptr(),
            clearances.len(),
            tags.table.as_ptr(),
            tags.table.len(),
            tags.rule_memory.as_mut_ptr(),
            tags.rule_memory.len(),
            lent.program.as_mut_ptr(),
            lent.program.len(),
            lent.stack.as_mut_ptr(),
            lent.stack.len(),
            tags.handler.as_mut_ptr(),
            tags.handler.len(),
            lent.numbers.as_mut_ptr(),
            lent.numbers.len(),
            lent.line_labels.as_mut_ptr(),
            lent.line_labels.len(),
            lent.kinds.as_mut_ptr(),
            lent.kinds.len(),
            lent.pages.as_mut_ptr(),
            lent.pages.len(),
            fuel,
        )
    }
}

/// How many kernel commands the handler of this table has, unless the bytes are no rule table.
pub fn handler_count(table: &[u8]) -> Option<usize> {
    // SAFETY: the pointer and the length are of one slice.
    match unsafe { sys::luvrodan_handler_count(table.as_ptr(), table.len()) } {
        0 => None,
        count => Some(count as usize),
    }
}

/// A buffer that is shorter than [`PAGE_LIMIT`].
#[derive(Clone, Copy, Debug, PartialEq, Eq)]
pub struct ShortBuffer;

/// Writes the page of a job to the buffer's start: its length, the rest being as it came.
pub fn page_into(job: &[u8], buffer: &mut [u8]) -> Result<usize, ShortBuffer> {
    // SAFETY: each pointer and length is of one slice; the exclusive one cannot overlap the other.
    let raw = unsafe { sys::luvrodan_page(job.as_ptr(), job.len(), buffer.as_mut_ptr(), buffer.len()) };
    match raw.status {
        0 => Ok(raw.length as usize),
        _ => Err(ShortBuffer),
    }
}

/// The page of a job: what the program `page` prints for it.
pub fn page(job: &[u8]) -> Vec<u8> {
    let mut buffer = vec![0; PAGE_LIMIT];
    let length = page_into(job, &mut buffer).expect("the buffer holds any page");
    buffer.truncate(length);
    buffer
}
