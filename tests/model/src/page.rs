//! The `page` program: from a job's bytes to a page's bytes (document 01, "The page program"; document 02, U1, for the
//! end line, U4, for the page numbers, and U5, for the pages' clearances).

use crate::engine::{self, judged, Lent, CLEARED_FOR_ALL};
use crate::machine::Kind;
use crate::rules::{Table, STANDARD};
use crate::{flows, Atom, Label};

/// The most bytes of a job.
pub const JOB_BYTES: usize = 65_536;
/// The lines of space that the program lends; an end line takes one of them.
pub const LINES: usize = 1_024;

/// A job that was read.
#[derive(Clone, Debug, PartialEq, Eq)]
pub struct Job<'a> {
    pub cells: Vec<Atom>,
    pub allowance: u32,
    pub reader: Label,
    pub sheet: &'a [u8],
}

/// What may be wrong with a job.
#[derive(Clone, Copy, Debug, PartialEq, Eq)]
pub enum JobFault {
    TooLong,
    UnknownByte,
    CutOperand,
    TooManyCells,
    NoSheet,
}

/// Reads a job, or says what is wrong and at which offset.
pub fn read(job: &[u8]) -> Result<Job<'_>, (JobFault, usize)> {
    if job.len() > JOB_BYTES {
        return Err((JobFault::TooLong, JOB_BYTES));
    }
    let mut cells = Vec::new();
    let mut allowance = 1_000_000;
    let mut reader = 0;
    let mut rest = job;
    loop {
        let offset = job.len() - rest.len();
        let cut = (JobFault::CutOperand, offset);
        let (&code, operands) = rest.split_first().ok_or((JobFault::NoSheet, offset))?;
        match code {
            0x40 => {
                let (number, after) = operands.split_first_chunk().ok_or(cut)?;
                let (label, after) = after.split_first_chunk().ok_or(cut)?;
                if cells.len() == engine::CELLS {
                    return Err((JobFault::TooManyCells, offset));
                }
                cells.push(Atom { number: i64::from_le_bytes(*number), label: u32::from_le_bytes(*label) });
                rest = after;
            }
            0x41 | 0x42 => {
                let (field, after) = operands.split_first_chunk().ok_or(cut)?;
                let field = u32::from_le_bytes(*field);
                if code == 0x41 {
                    allowance = field;
                } else {
                    reader = field;
                }
                rest = after;
            }
            0x43 => return Ok(Job { cells, allowance, reader, sheet: operands }),
            _ => return Err((JobFault::UnknownByte, offset)),
        }
    }
}

/// What `page` prints for a job: every page is cleared for all owners.
pub fn page(job: &[u8]) -> String {
    match read(job) {
        Ok(job) => printed(&job, &CLEARED_FOR_ALL),
        Err((_, offset)) => format!("job {offset}\n"),
    }
}

/// What is printed for a job that was read, with pages so cleared.
pub fn printed(job: &Job, clearances: &[i64]) -> String {
    let table = Table::parse(&STANDARD).expect("the standard table is a table");
    let mut lent = Lent::roomy(&job.cells, LINES);
    let fuel = job.allowance.into();
    let judge = &mut |question: &_| table.answer(question);
    let report = match judged(job.sheet, &mut lent, clearances, fuel, judge) {
        Ok(report) => report,
        Err(refusal) => return format!("refused {} {}\n", refusal.number, refusal.place),
    };
    let cleared = lent.lines(&report).into_iter().filter(|line| flows(line.label, job.reader));
    cleared
        .map(|line| match line.kind {
            Kind::Number => format!("{} {} {:08x}\n", line.page, line.number, line.label),
            Kind::End => format!("{} end {:08x}\n", line.page, line.label),
        })
        .collect()
}
