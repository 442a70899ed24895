//! What the tests of the machine share: runs on both engines, which must agree.

// Not every test file uses all of it.
#![allow(dead_code)]

use model::engine::{plain, tagged, Lent, Report, CLEARED_FOR_ALL};
use model::machine::{Kind, Line, Stop};
use model::rules::{Table, STANDARD};
use model::sample::Sample;
use model::sheet::{encode, Command};
use model::{Atom, Label, Refusal};

pub const CELLS: [Atom; 2] = [Atom { number: 7, label: 0 }, Atom { number: 5, label: 1 }];

/// A run on both engines, which must agree: the report, the lines and the rule memory.
pub struct Run {
    pub report: Report,
    pub lines: Vec<Line>,
    pub lent: Lent,
}

pub fn line(number: i64, label: Label) -> Line {
    line_on(0, number, label)
}

pub fn line_on(page: u8, number: i64, label: Label) -> Line {
    Line { page, kind: Kind::Number, number, label }
}

pub fn end(label: Label) -> Line {
    Line { page: 0, kind: Kind::End, number: 0, label }
}

pub fn run_with(sheet: &[Command], cells: &[Atom], fuel: u64, lines: usize) -> Result<Run, Refusal> {
    run_cleared(sheet, cells, &CLEARED_FOR_ALL, fuel, lines)
}

pub fn run_cleared(
    sheet: &[Command],
    cells: &[Atom],
    clearances: &[i64],
    fuel: u64,
    lines: usize,
) -> Result<Run, Refusal> {
    let sheet = encode(sheet);
    let mut by_plain = Lent::roomy(cells, lines);
    let plain = plain(&sheet, &mut by_plain, clearances, fuel);
    let sample = Sample::of(&Table::parse(&STANDARD).unwrap());
    let mut lent = Lent::roomy(cells, lines);
    let tagged = tagged(&sheet, &STANDARD, sample.handler(), &mut lent, clearances, fuel);
    assert_eq!(tagged.wrong, None);
    let report = match (plain, tagged.answer) {
        (Ok(plain), Ok(tagged)) => {
            assert_eq!(Report { faults: 0, kernel_steps: 0, ..tagged }, plain);
            assert_eq!(
                Lent { rule_memory: vec![0; 7], handler: vec![0; lent.handler.len()], ..lent.clone() },
                by_plain
            );
            tagged
        }
        (plain, tagged) => {
            assert_eq!(plain, tagged);
            return Err(tagged.unwrap_err());
        }
    };
    Ok(Run { report, lines: lent.lines(&report), lent })
}

pub fn run(sheet: &[Command]) -> Run {
    run_with(sheet, &CELLS, 1000, 100).unwrap()
}

pub fn stop_of(sheet: &[Command], fuel: u64) -> Stop {
    run_with(sheet, &CELLS, fuel, 100).unwrap().report.stop
}

pub fn stop_and_lines(sheet: &[Command], fuel: u64) -> (Stop, Vec<Line>) {
    let run = run_with(sheet, &CELLS, fuel, 100).unwrap();
    (run.report.stop, run.lines)
}

/// R1's job for a reader.
pub fn job(reader: u32, sheet: &[Command]) -> Vec<u8> {
    let mut job = Vec::new();
    for cell in CELLS {
        job.push(0x40);
        job.extend(cell.number.to_le_bytes());
        job.extend(cell.label.to_le_bytes());
    }
    job.push(0x42);
    job.extend(reader.to_le_bytes());
    job.push(0x43);
    job.extend(encode(sheet));
    job
}

pub fn start_with_rule_memory(memory: [i64; 7]) -> Result<Report, Refusal> {
    let sample = Sample::of(&Table::parse(&STANDARD).unwrap());
    let mut lent = Lent::roomy(&CELLS, 10);
    lent.rule_memory = memory.to_vec();
    tagged(&[], &STANDARD, sample.handler(), &mut lent, &CLEARED_FOR_ALL, 10).answer
}
