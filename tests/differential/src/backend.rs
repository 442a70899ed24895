//! What is held to the model: an engine behind one trait. Here is the model itself as an engine; [`faulty`] has variants
//! of it with one deliberate fault each, on which the tests are tried.

pub mod faults;
pub mod faulty;

use model::engine::{plain, tagged, Lent, Report};
use model::machine::whole;
use model::page::page;
use model::rules::Table;
use model::sample::Sample;
use model::sheet::{decode, Command};
use model::Refusal;

/// An answer as the C interface gives it: refusal, position, stop, steps, pc, its label, depth, lines, faults, kernel
/// steps.
#[derive(Clone, Copy, Debug, PartialEq, Eq)]
pub struct Answer {
    pub words: [u64; 10],
}

impl Answer {
    /// The Add or Sub that a run was stopped at after its values were found, and what it comes to as a whole number.
    pub fn sum(&self, sheet: &[u8], lent: &Lent) -> Option<(Command, i128)> {
        let [0, _, 6 | 9, _, pc, _, depth, _, _, _] = self.words else { return None };
        let command = *decode(sheet).ok()?.get(pc as usize)?;
        let number = |below: usize| lent.stack[3 * (depth as usize - 1 - below) + 1];
        matches!(command, Command::Add | Command::Sub)
            .then(|| (command, whole(command, number(0), number(1))))
    }
}

/// The page of the line that a run writes from this place: a printing command's, or page 0 at the sheet's end.
pub fn page_from(commands: &[Command], place: u64) -> Option<u8> {
    if place == commands.len() as u64 {
        return Some(0);
    }
    match commands.get(place as usize)? {
        Command::Output => Some(0),
        Command::OutputTo(page) => Some(*page),
        _ => None,
    }
}

/// Whether a whole number is a number of the machine.
pub fn fits(whole: i128) -> bool {
    i64::try_from(whole).is_ok()
}

impl From<Result<Report, Refusal>> for Answer {
    fn from(result: Result<Report, Refusal>) -> Answer {
        let words = match result {
            Err(refusal) => [refusal.number, refusal.place, 0, 0, 0, 0, 0, 0, 0, 0],
            Ok(report) => [
                0,
                0,
                report.stop as u64,
                report.steps,
                report.place as u64,
                report.place_label.into(),
                report.depth,
                report.lines,
                report.faults,
                report.kernel_steps,
            ],
        };
        Answer { words }
    }
}

/// The longest page: 1,024 lines, the end line included, of at most 33 bytes.
pub const PAGE_LIMIT: usize = 33_792;

pub trait Backend {
    fn plain(&self, sheet: &[u8], lent: &mut Lent, clearances: &[i64], fuel: u64) -> Answer;
    fn tagged(&self, sheet: &[u8], table: &[u8], lent: &mut Lent, clearances: &[i64], fuel: u64) -> Answer;
    /// Kernel commands of the table's handler; 0 where the bytes are no table.
    fn handler_count(&self, table: &[u8]) -> u64;
    /// Status and length of the job's page, which is written to the buffer.
    fn page(&self, job: &[u8], buffer: &mut [u8]) -> (u64, u64);
}

/// The page of a job as the C interface gives it.
pub fn model_page(job: &[u8], buffer: &mut [u8]) -> (u64, u64) {
    if buffer.len() < PAGE_LIMIT {
        return (1, PAGE_LIMIT as u64);
    }
    put_page(&page(job), buffer)
}

fn put_page(text: &str, buffer: &mut [u8]) -> (u64, u64) {
    buffer[..text.len()].copy_from_slice(text.as_bytes());
    (0, text.len() as u64)
}

/// The model as an engine.
pub struct Itself;

fn sample(table: &[u8]) -> Sample {
    Table::parse(table).map_or(Sample::default(), |table| Sample::of(&table))
}

impl Backend for Itself {
    fn plain(&self, sheet: &[u8], lent: &mut Lent, clearances: &[i64], fuel: u64) -> Answer {
        plain(sheet, lent, clearances, fuel).into()
    }

    fn tagged(&self, sheet: &[u8], table: &[u8], lent: &mut Lent, clearances: &[i64], fuel: u64) -> Answer {
        tagged(sheet, table, sample(table).handler(), lent, clearances, fuel).answer.into()
    }

    fn handler_count(&self, table: &[u8]) -> u64 {
        sample(table).handler().count as u64
    }

    fn page(&self, job: &[u8], buffer: &mut [u8]) -> (u64, u64) {
        model_page(job, buffer)
    }
}
