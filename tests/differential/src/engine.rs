//! The proved engines, through the wrapper.

use crate::backend::{Answer, Backend};
use crate::text::{Texts, Written};
use luvrodan::sys::{RawResult, RawWritten};
use luvrodan::{Refusal, Tags};
use model::engine::Lent;

pub struct Engine;

fn lend(lent: &mut Lent) -> (luvrodan::Lent<'_>, &mut [i64], &mut [i64]) {
    let lent_to_engine = luvrodan::Lent {
        values: &mut lent.values,
        labels: &mut lent.labels,
        program: &mut lent.program,
        stack: &mut lent.stack,
        numbers: &mut lent.numbers,
        line_labels: &mut lent.line_labels,
        kinds: &mut lent.kinds,
        pages: &mut lent.pages,
    };
    (lent_to_engine, &mut lent.rule_memory, &mut lent.handler)
}

/// The answer's words, once their names say the same.
fn answer(raw: RawResult) -> Answer {
    match raw.named() {
        Ok(report) => assert_eq!((raw.refusal, report.stop.number()), (0, raw.stop)),
        Err(refusal) => assert_eq!((refusal.number(), refusal.place()), (raw.refusal, raw.position)),
    }
    Answer {
        words: [
            raw.refusal,
            raw.position,
            raw.stop,
            raw.steps,
            raw.pc as u64,
            raw.pc_label,
            raw.depth,
            raw.lines,
            raw.faults,
            raw.kernel_steps,
        ],
    }
}

impl Backend for Engine {
    fn plain(&self, sheet: &[u8], lent: &mut Lent, clearances: &[i64], fuel: u64) -> Answer {
        let (lent, _, _) = lend(lent);
        answer(luvrodan::plain_raw(sheet, lent, clearances, fuel))
    }

    fn tagged(&self, sheet: &[u8], table: &[u8], lent: &mut Lent, clearances: &[i64], fuel: u64) -> Answer {
        let (lent, rule_memory, handler) = lend(lent);
        answer(luvrodan::tagged_raw(sheet, lent, Tags { table, rule_memory, handler }, clearances, fuel))
    }

    fn handler_count(&self, table: &[u8]) -> u64 {
        luvrodan::handler_count(table).unwrap_or(0) as u64
    }

    fn page(&self, job: &[u8], buffer: &mut [u8]) -> (u64, u64) {
        match luvrodan::page_into(job, buffer) {
            Ok(length) => (0, length as u64),
            Err(luvrodan::ShortBuffer) => (1, luvrodan::PAGE_LIMIT as u64),
        }
    }
}

/// The answer's words, once its name says the same.
fn written(raw: RawWritten, named: Result<usize, Refusal>) -> Written {
    match named {
        Ok(length) => assert_eq!((raw.refusal, raw.length), (0, length as u64)),
        Err(refusal) => assert_eq!((refusal.number(), refusal.place()), (raw.refusal, raw.position)),
    }
    [raw.refusal, raw.position, raw.length]
}

impl Texts for Engine {
    fn assemble(&self, text: &[u8], buffer: &mut [u8]) -> Written {
        let raw = luvrodan::assemble_raw(text, buffer);
        written(raw, raw.assembled())
    }

    fn list(&self, sheet: &[u8], buffer: &mut [u8]) -> Written {
        let raw = luvrodan::list_raw(sheet, buffer);
        written(raw, raw.listed())
    }
}
