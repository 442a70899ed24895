//! The two engines over lent words: what is refused, what is run, what the words hold afterwards (document 01, "Tag
//! engine", "Refused before the first step"; document 02, U1 and U4, for the third and fourth run of the output space,
//! U5, for the clearances, and U6, for the kinds of frames).

use crate::kernel::{self, Breach, Ending};
use crate::machine::{Clearances, Judge, Kind, Line, Machine, Stop, STACK};
use crate::rules::{standard, Labels, Question, RuleMemory, Table};
use crate::sheet::{decode, Command, PAGES};
use crate::{Atom, Label, Refusal};

/// The most cells.
pub const CELLS: usize = 1024;
/// The largest allowance.
pub const ALLOWANCE: u64 = 1_000_000;
/// Clearances of a start: every page is cleared for all owners.
pub const CLEARED_FOR_ALL: [i64; PAGES as usize] = [Label::MAX as i64; PAGES as usize];

/// Everything that is lent to a run.
#[derive(Clone, Debug, Default, PartialEq, Eq)]
pub struct Lent {
    pub values: Vec<i64>,
    pub labels: Vec<i64>,
    pub rule_memory: Vec<i64>,
    pub program: Vec<i64>,
    pub stack: Vec<i64>,
    pub handler: Vec<i64>,
    pub numbers: Vec<i64>,
    pub line_labels: Vec<i64>,
    pub kinds: Vec<i64>,
    pub pages: Vec<i64>,
}

impl Lent {
    /// Memory that suffices for any run: these cells, an empty rule memory, room for so many lines, the end line among
    /// them, zeros.
    pub fn roomy(cells: &[Atom], lines: usize) -> Lent {
        Lent {
            values: cells.iter().map(|cell| cell.number).collect(),
            labels: cells.iter().map(|cell| cell.label.into()).collect(),
            rule_memory: vec![0; 7],
            program: vec![0; 2 * crate::sheet::COMMANDS],
            stack: vec![0; 3 * STACK],
            handler: vec![0; 2 * kernel::COMMANDS],
            numbers: vec![0; lines],
            line_labels: vec![0; lines],
            kinds: vec![0; lines],
            pages: vec![0; lines],
        }
    }

    /// How many lines fit: the shortest of the output space's four runs says so.
    pub fn room(&self) -> usize {
        self.numbers.len().min(self.line_labels.len()).min(self.kinds.len()).min(self.pages.len())
    }

    /// The lines that a run of this report left.
    pub fn lines(&self, report: &Report) -> Vec<Line> {
        let line = |index: usize| Line {
            page: self.pages[index] as u8,
            kind: if self.kinds[index] == Kind::End as i64 { Kind::End } else { Kind::Number },
            number: self.numbers[index],
            label: self.line_labels[index] as Label,
        };
        (0..report.lines as usize).map(line).collect()
    }
}

/// What an accepted run came to; the last two are 0 from the plain engine.
#[derive(Clone, Copy, Debug, PartialEq, Eq)]
pub struct Report {
    pub stop: Stop,
    pub steps: u64,
    pub place: i64,
    pub place_label: Label,
    pub depth: u64,
    pub lines: u64,
    pub faults: u64,
    pub kernel_steps: u64,
}

/// The handler of a table, which document 01 leaves to the engine: its commands, two words each.
#[derive(Clone, Copy, Debug)]
pub struct Handler<'a> {
    pub count: usize,
    pub words: &'a [i64],
}

/// Where a handler is not what document 01 says of it.
#[derive(Clone, Debug, PartialEq, Eq)]
pub enum HandlerFault {
    TooManyCommands(usize),
    Breach(Question, Breach),
    /// The handler's ending and rule memory are not the table's answer.
    WrongAnswer(Question, Ending, RuleMemory),
}

/// The cells of two runs of words, or refusal 4 or 5.
fn cells(values: &[i64], labels: &[i64]) -> Result<Vec<Atom>, Refusal> {
    if values.len() != labels.len() {
        return Err(Refusal::new(4, values.len().min(labels.len())));
    }
    if values.len() > CELLS {
        return Err(Refusal::new(4, CELLS));
    }
    let mut cells = Vec::new();
    for (index, (&number, &word)) in values.iter().zip(labels).enumerate() {
        let label = Label::try_from(word).map_err(|_| Refusal::new(5, index))?;
        cells.push(Atom { number, label });
    }
    Ok(cells)
}

/// The pages' clearances, a word each, or refusal 13: at 16 where there are not sixteen words.
pub fn clearances(words: &[i64]) -> Result<Clearances, Refusal> {
    let mut clearances = [0; PAGES as usize];
    if words.len() != clearances.len() {
        return Err(Refusal::new(13, clearances.len()));
    }
    for (page, (clearance, &word)) in clearances.iter_mut().zip(words).enumerate() {
        *clearance = Label::try_from(word).map_err(|_| Refusal::new(13, page))?;
    }
    Ok(clearances)
}

/// What both engines check first, in this order: the sheet, the cells, the clearances.
fn given(sheet: &[u8], lent: &Lent, words: &[i64]) -> Result<(Vec<Command>, Vec<Atom>, Clearances), Refusal> {
    let commands = decode(sheet)?;
    let cells = cells(&lent.values, &lent.labels)?;
    Ok((commands, cells, clearances(words)?))
}

/// Refusal 8 where one of these spaces, each with the words it needs, is too short.
fn spaces(needs: &[(usize, usize)]) -> Result<(), Refusal> {
    match needs.iter().position(|(has, wants)| has < wants) {
        Some(index) => Err(Refusal::new(8, index + 1)),
        None => Ok(()),
    }
}

fn allowance(fuel: u64) -> Result<(), Refusal> {
    if fuel > ALLOWANCE {
        return Err(Refusal::new(9, 0));
    }
    Ok(())
}

fn lay<const N: usize>(space: &mut [i64], records: impl Iterator<Item = [i64; N]>) {
    for (place, record) in space.chunks_exact_mut(N).zip(records) {
        place.copy_from_slice(&record);
    }
}

/// Runs the machine and lays what it left into the lent words.
fn run(
    mut machine: Machine,
    commands: &[Command],
    lent: &mut Lent,
    fuel: u64,
    judge: &mut impl Judge,
) -> Report {
    let (stop, steps) = machine.run(commands, fuel, judge);
    lay(&mut lent.program, commands.iter().map(|command| command.words()));
    lay(&mut lent.stack, machine.stack.entries.iter().map(|entry| entry.words()));
    lay(&mut lent.values, machine.cells.iter().map(|cell| [cell.number]));
    lay(&mut lent.labels, machine.cells.iter().map(|cell| [cell.label.into()]));
    let lines = &machine.pages.lines;
    lay(&mut lent.numbers, lines.iter().map(|line| [line.number]));
    lay(&mut lent.line_labels, lines.iter().map(|line| [line.label.into()]));
    lay(&mut lent.kinds, lines.iter().map(|line| [line.kind as i64]));
    lay(&mut lent.pages, lines.iter().map(|line| [line.page.into()]));
    Report {
        stop,
        steps,
        place: machine.place,
        place_label: machine.place_label,
        depth: machine.stack.depth as u64,
        lines: lines.len() as u64,
        faults: 0,
        kernel_steps: 0,
    }
}

/// The plain engine: the standard rules.
pub fn plain(sheet: &[u8], lent: &mut Lent, clearances: &[i64], fuel: u64) -> Result<Report, Refusal> {
    judged(sheet, lent, clearances, fuel, &mut standard)
}

/// The plain engine under other rules than the standard ones.
pub fn judged(
    sheet: &[u8],
    lent: &mut Lent,
    clearances: &[i64],
    fuel: u64,
    judge: &mut impl Judge,
) -> Result<Report, Refusal> {
    let (commands, cells, clearances) = given(sheet, lent, clearances)?;
    spaces(&[(lent.program.len(), 2 * commands.len()), (lent.stack.len(), 3 * STACK)])?;
    allowance(fuel)?;
    let machine = Machine::new(cells, clearances, lent.room());
    Ok(run(machine, &commands, lent, fuel, judge))
}

/// A rule memory of one row, with the handler behind it.
struct Tags<'a, N> {
    memory: RuleMemory,
    handler: Handler<'a>,
    table: &'a Table,
    faults: u64,
    kernel_steps: u64,
    wrong: Option<HandlerFault>,
    /// Told what the rule memory holds and what it is asked, for tests that count.
    note: N,
}

impl<N> Tags<'_, N> {
    /// Writes the question, runs the handler, and holds what it did to the table's own answer.
    fn fault(&mut self, question: &Question) {
        self.memory[..5].copy_from_slice(&question.words());
        self.memory[5..].fill(-1);
        self.faults += 1;
        let mut expected = self.memory;
        let answer = self.table.answer(question);
        if let Some(labels) = answer {
            expected[5] = labels.place.into();
            expected[6] = labels.result.into();
        }
        match kernel::run(self.handler.words, self.handler.count, &mut self.memory) {
            Ok((ending, steps)) => {
                self.kernel_steps += steps;
                let right = answer.is_some() == (ending == Ending::Returned);
                if !right || self.memory != expected {
                    self.blame(HandlerFault::WrongAnswer(*question, ending, self.memory));
                }
            }
            Err(breach) => self.blame(HandlerFault::Breach(*question, breach)),
        }
    }

    fn blame(&mut self, fault: HandlerFault) {
        self.wrong.get_or_insert(fault);
    }
}

impl<N: FnMut(&RuleMemory, &Question)> Judge for Tags<'_, N> {
    fn judge(&mut self, question: &Question) -> Option<Labels> {
        (self.note)(&self.memory, question);
        if self.memory[..5] != question.words() {
            self.fault(question);
        }
        match (Label::try_from(self.memory[5]), Label::try_from(self.memory[6])) {
            (Ok(place), Ok(result)) => Some(Labels { place, result }),
            _ => None,
        }
    }
}

/// What the tag engine answers, with what was wrong with the handler that it was given.
pub struct Tagged {
    pub answer: Result<Report, Refusal>,
    pub wrong: Option<HandlerFault>,
}

/// The tag engine with a rule memory of one row.
pub fn tagged(
    sheet: &[u8],
    table: &[u8],
    handler: Handler,
    lent: &mut Lent,
    clearances: &[i64],
    fuel: u64,
) -> Tagged {
    tagged_noted(sheet, table, handler, lent, clearances, fuel, |_, _| ())
}

/// The same; `note` is told before each command what the rule memory holds and what it is asked.
pub fn tagged_noted(
    sheet: &[u8],
    table: &[u8],
    handler: Handler,
    lent: &mut Lent,
    clearances: &[i64],
    fuel: u64,
    note: impl FnMut(&RuleMemory, &Question),
) -> Tagged {
    match tagged_run(sheet, table, handler, lent, clearances, fuel, note) {
        Ok((report, wrong)) => Tagged { answer: Ok(report), wrong },
        Err(refusal) => Tagged { answer: Err(refusal), wrong: None },
    }
}

fn tagged_run(
    sheet: &[u8],
    table: &[u8],
    handler: Handler,
    lent: &mut Lent,
    clearances: &[i64],
    fuel: u64,
    note: impl FnMut(&RuleMemory, &Question),
) -> Result<(Report, Option<HandlerFault>), Refusal> {
    let (commands, cells, clearances) = given(sheet, lent, clearances)?;
    let table = Table::parse(table)?;
    if !table.accepts(&lent.rule_memory) {
        return Err(Refusal::new(7, 0));
    }
    spaces(&[
        (lent.program.len(), 2 * commands.len()),
        (lent.stack.len(), 3 * STACK),
        (lent.handler.len(), 2 * handler.count),
    ])?;
    allowance(fuel)?;
    let too_many = handler.count > kernel::COMMANDS;
    let wrong = too_many.then_some(HandlerFault::TooManyCommands(handler.count));
    let mut tags = Tags { memory: [0; 7], handler, table: &table, faults: 0, kernel_steps: 0, wrong, note };
    tags.memory.copy_from_slice(&lent.rule_memory);
    let machine = Machine::new(cells, clearances, lent.room());
    let report = run(machine, &commands, lent, fuel, &mut tags);
    lent.handler[..2 * handler.count].copy_from_slice(&handler.words[..2 * handler.count]);
    lent.rule_memory.copy_from_slice(&tags.memory);
    Ok((Report { faults: tags.faults, kernel_steps: tags.kernel_steps, ..report }, tags.wrong))
}
