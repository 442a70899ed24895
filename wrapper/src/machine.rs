//! A machine that owns its memory.

use crate::{handler_count, plain, sys, tagged, Clearances, Lent, Refusal, Report, Tags, RULE_MEMORY_WORDS};
use std::fmt;

/// A number with a label, the set of owners 0 to 31 by bits.
#[derive(Clone, Copy, Debug, PartialEq, Eq)]
pub struct Atom {
    pub number: i64,
    pub label: u32,
}

/// What a line says.
#[derive(Clone, Copy, Debug, PartialEq, Eq)]
pub enum Kind {
    /// A number that an Output or OutputTo wrote.
    Number,
    /// That the run came to the end of the sheet.
    End,
}

/// A line of a run, shown as `page` prints it. Its page is 0 to 15. An end line's page and number are 0, its label that
/// of the place.
#[derive(Clone, Copy, Debug, PartialEq, Eq)]
pub struct Line {
    pub page: u8,
    pub kind: Kind,
    pub number: i64,
    pub label: u32,
}

impl fmt::Display for Line {
    fn fmt(&self, out: &mut fmt::Formatter) -> fmt::Result {
        match self.kind {
            Kind::Number => write!(out, "{} {} {:08x}", self.page, self.number, self.label),
            Kind::End => write!(out, "{} end {:08x}", self.page, self.label),
        }
    }
}

/// A stack entry: a value, or the frame that a call left.
#[derive(Clone, Copy, Debug, PartialEq, Eq)]
pub enum Entry {
    Value(Atom),
    /// A frame with no result due: Ret returns to it.
    Frame(Atom),
    /// A frame with one result due: RetV returns to it.
    FrameDue(Atom),
}

/// Cells, working space, output space, rule memory and clearances. A run starts at place 0 with an empty stack and no
/// lines, from the cells and the rule memory that the run before left, under the clearances that were last set.
#[derive(Clone, Debug)]
pub struct Machine {
    values: Vec<i64>,
    labels: Vec<i64>,
    program: Vec<i64>,
    stack: Vec<i64>,
    handler: Vec<i64>,
    numbers: Vec<i64>,
    line_labels: Vec<i64>,
    kinds: Vec<i64>,
    pages: Vec<i64>,
    rule_memory: [i64; RULE_MEMORY_WORDS],
    clearances: Clearances,
    depth: usize,
    lines: usize,
}

impl Machine {
    /// A machine with these cells and room for so many lines, of which the end line is one. Every page is cleared for all
    /// owners.
    pub fn new(cells: &[Atom], lines: usize) -> Machine {
        Machine {
            values: cells.iter().map(|cell| cell.number).collect(),
            labels: cells.iter().map(|cell| cell.label.into()).collect(),
            program: Vec::new(),
            stack: vec![0; 768],
            handler: Vec::new(),
            numbers: vec![0; lines],
            line_labels: vec![0; lines],
            kinds: vec![0; lines],
            pages: vec![0; lines],
            rule_memory: [0; RULE_MEMORY_WORDS],
            clearances: Clearances::ALL,
            depth: 0,
            lines: 0,
        }
    }

    /// Runs a sheet under the standard rules.
    pub fn run_plain(&mut self, sheet: &[u8], fuel: u64) -> Result<Report, Refusal> {
        self.make_room(sheet, 0);
        let clearances = self.clearances;
        let (lent, _, _) = self.lent();
        let report = plain(sheet, lent, &clearances, fuel)?;
        Ok(self.note(report))
    }

    /// Runs a sheet on the tag engine, under the rules of a table.
    pub fn run_tagged(&mut self, sheet: &[u8], table: &[u8], fuel: u64) -> Result<Report, Refusal> {
        self.make_room(sheet, 2 * handler_count(table).unwrap_or(0));
        let clearances = self.clearances;
        let (lent, rule_memory, handler) = self.lent();
        let report = tagged(sheet, lent, Tags { table, rule_memory, handler }, &clearances, fuel)?;
        Ok(self.note(report))
    }

    /// A sheet has at most a command for each byte.
    fn make_room(&mut self, sheet: &[u8], handler: usize) {
        let program = 2 * sheet.len().min(4096);
        if self.program.len() < program {
            self.program.resize(program, 0);
        }
        if self.handler.len() < handler {
            self.handler.resize(handler, 0);
        }
    }

    fn lent(&mut self) -> (Lent<'_>, &mut [i64], &mut [i64]) {
        let lent = Lent {
            values: &mut self.values,
            labels: &mut self.labels,
            program: &mut self.program,
            stack: &mut self.stack,
            numbers: &mut self.numbers,
            line_labels: &mut self.line_labels,
            kinds: &mut self.kinds,
            pages: &mut self.pages,
        };
        (lent, &mut self.rule_memory, &mut self.handler)
    }

    fn note(&mut self, report: Report) -> Report {
        self.depth = report.depth;
        self.lines = report.lines;
        report
    }

    pub fn cells(&self) -> impl Iterator<Item = Atom> + '_ {
        let words = self.values.iter().zip(&self.labels);
        words.map(|(&number, &label)| Atom { number, label: label as u32 })
    }

    /// The lines of the last accepted run. Where it came to the end of the sheet the last one says so.
    pub fn lines(&self) -> impl Iterator<Item = Line> + '_ {
        (0..self.lines).map(|index| Line {
            page: page(self.pages[index]),
            kind: kind(self.kinds[index]),
            number: self.numbers[index],
            label: self.line_labels[index] as u32,
        })
    }

    /// The lines of the last accepted run that a reader who is cleared for this set of owners may see.
    pub fn view(&self, set: u32) -> impl Iterator<Item = Line> + '_ {
        self.lines().filter(move |line| line.label & !set == 0)
    }

    /// Those of them that stand on this page. The end line is on page 0.
    pub fn view_of_page(&self, set: u32, page: u8) -> impl Iterator<Item = Line> + '_ {
        self.view(set).filter(move |line| line.page == page)
    }

    /// Whether such a reader sees the end line, and so knows that all lines for them are there, on every page. Where not,
    /// the run was cut, or it ended at a place that they are not cleared for.
    pub fn view_is_whole(&self, set: u32) -> bool {
        self.view(set).any(|line| line.kind == Kind::End)
    }

    /// The stack of the last accepted run, bottom first.
    pub fn stack(&self) -> impl Iterator<Item = Entry> + '_ {
        self.stack.chunks_exact(3).take(self.depth).map(|words| {
            let atom = Atom { number: words[1], label: words[2] as u32 };
            match words[0] {
                sys::ENTRY_VALUE => Entry::Value(atom),
                sys::ENTRY_FRAME => Entry::Frame(atom),
                sys::ENTRY_FRAME_RESULT => Entry::FrameDue(atom),
                word => panic!("entry {word} is not of this interface"),
            }
        })
    }

    pub fn rule_memory(&self) -> [i64; RULE_MEMORY_WORDS] {
        self.rule_memory
    }

    pub fn set_rule_memory(&mut self, words: [i64; RULE_MEMORY_WORDS]) {
        self.rule_memory = words;
    }

    pub fn clearances(&self) -> Clearances {
        self.clearances
    }

    /// The clearances of the runs from now on.
    pub fn set_clearances(&mut self, clearances: Clearances) {
        self.clearances = clearances;
    }
}

fn page(word: i64) -> u8 {
    match u8::try_from(word) {
        Ok(page) if usize::from(page) < sys::PAGE_COUNT => page,
        _ => panic!("page {word} is not of this interface"),
    }
}

fn kind(word: i64) -> Kind {
    match word {
        sys::LINE_NUMBER => Kind::Number,
        sys::LINE_END => Kind::End,
        _ => panic!("kind {word} is not of this interface"),
    }
}
