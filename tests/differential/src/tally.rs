//! What was reached, how often: a test that never meets a stop says nothing about it.

pub mod calls;
pub mod clearances;

use self::calls::{Calls, Carried};
use self::clearances::Clearances;
use crate::backend::{fits, Answer};
use crate::generate::Start;
use model::engine::Lent;
use model::machine::Kind;
use model::page::JobFault;
use model::rules::{Question, RuleMemory, Table, TableFault, DEPTH};
use model::sheet::{decode, Command, PAGES};

const TABLE_FAULTS: [TableFault; 7] = [
    TableFault::TooLong,
    TableFault::Unknown,
    TableFault::Misplaced,
    TableFault::TooDeep,
    TableFault::Unsupplied,
    TableFault::Missing,
    TableFault::LeftOver,
];

/// The refusals that a start can meet.
const REFUSALS: [usize; 12] = [1, 2, 3, 4, 5, 6, 7, 8, 9, 12, 13, 14];

const JOB_FAULTS: [JobFault; 5] = [
    JobFault::TooLong,
    JobFault::UnknownByte,
    JobFault::CutOperand,
    JobFault::TooManyCells,
    JobFault::NoSheet,
];

/// What may be met at the sheet's end: hidden is at a place whose label is not empty, spent with no allowance left.
const ENDS: [&str; 5] =
    ["end line", "end line, hidden", "end line, spent", "stop 8 at the end", "stop 8 at end, spent"];

/// Stop 8 where one run of the output space alone is the shortest.
const FULL: [&str; 4] = ["stop 8 by numbers", "stop 8 by labels", "stop 8 by kinds", "stop 8 by pages"];

/// What may be met at an OutputTo, in a run or before it.
const OUTPUT_TO: [&str; 7] = [
    "stop 3, OutputTo",
    "stop 8, OutputTo",
    "refusal 1, page over 15",
    "refusal 3, OutputTo",
    "refusal 12, page 16",
    "refusal 12, page over 127",
    "refusal 12 before another",
];

/// Stop 9 by command and side; by one is at the number next to the limit.
const OVERFLOWS: [&str; 7] = [
    "stop 9, Add above",
    "stop 9, Add below",
    "stop 9, Sub above",
    "stop 9, Sub below",
    "stop 9 by one above",
    "stop 9 by one below",
    "stop 9, hidden place",
];

/// Sums that are a limit.
const LIMITS: [&str; 4] = ["Add to 2^63-1", "Add to -2^63", "Sub to 2^63-1", "Sub to -2^63"];

/// What may be met in the rule memory, where the labels are those of the command that asks.
const ROWS: [&str; 7] = [
    "a row of OutputTo matched",
    "OutputTo at a row of Output",
    "Output at a row of OutputTo",
    "a row of CallN matched",
    "CallN at a row of Call",
    "Call at a row of CallN",
    "a row of RetV matched",
];

/// The codes of the row and of the command that asks, for each of them.
const ROW_CODES: [[i64; 2]; ROWS.len()] =
    [[12, 12], [4, 12], [12, 4], [13, 13], [10, 13], [13, 10], [14, 14]];

/// Rule memories at a start; the last is refused for its code alone.
const STARTS: [&str; 6] = [
    "start with a row of Output",
    "start with a row of OutputTo",
    "start with a row of Call",
    "start with a row of CallN",
    "start with a row of RetV",
    "refusal 7 by code 15",
];

/// Counts for one engine.
#[derive(Clone, Default)]
pub struct Engine {
    pub stops: [u64; 12],
    pub refusals: [u64; 15],
    /// Refusal 8 by its place.
    pub spaces: [u64; 4],
    pub steps: u64,
    pub lines: u64,
    pub faults: u64,
    pub kernel_steps: u64,
    pub longest: u64,
    pub ends: [u64; ENDS.len()],
    pub full: [u64; FULL.len()],
    pub output_to: [u64; OUTPUT_TO.len()],
    pub overflows: [u64; OVERFLOWS.len()],
    /// Stop 6 at a sum that is outside 64 bits.
    pub denied_overflows: u64,
    /// Stop 6 at an OutputTo.
    pub denied_output_to: u64,
    /// Lines by page; on page 0 also those of Output and the end lines.
    pub pages: [u64; PAGES as usize],
    pub clearances: Clearances,
    pub calls: Calls,
}

impl Engine {
    /// Counts an answer to a start, which left the memory like this.
    pub fn note(&mut self, answer: &Answer, start: &Start, lent: &Lent) {
        let [refusal, place, stop, steps, pc, label, _, lines, faults, kernel_steps] = answer.words;
        self.calls.note(answer, start, lent);
        if refusal != 0 {
            self.refusals[refusal as usize] += 1;
            if refusal == 8 {
                self.spaces[place as usize] += 1;
            }
            self.note_output_to(refused_at_output_to(&start.sheet, refusal, place as usize));
            return;
        }
        self.stops[stop as usize] += 1;
        self.steps += steps;
        self.lines += lines;
        self.faults += faults;
        self.kernel_steps += kernel_steps;
        self.longest = self.longest.max(steps);
        let end = lent.kinds[..lines as usize].contains(&(Kind::End as i64));
        for &page in &lent.pages[..lines as usize] {
            self.pages[page as usize] += 1;
        }
        let full = stop == 8;
        let commands = decode(&start.sheet).unwrap_or_default();
        let full_end = full && commands.len() as u64 == pc;
        if let Some(Command::OutputTo(_)) = commands.get(pc as usize) {
            self.note_output_to([stop == 3, full, false, false, false, false, false]);
            self.denied_output_to += u64::from(stop == 6);
        }
        let spent = steps == start.fuel;
        let met = [end, end && label != 0, end && spent, full_end, full_end && spent];
        for (count, met) in self.ends.iter_mut().zip(met) {
            *count += u64::from(met);
        }
        let runs = [&lent.numbers, &lent.line_labels, &lent.kinds, &lent.pages].map(Vec::len);
        let shortest = runs.iter().filter(|&&length| length == lent.room()).count();
        for (count, length) in self.full.iter_mut().zip(runs) {
            *count += u64::from(full && shortest == 1 && length == lent.room());
        }
        let Some((command, sum)) = answer.sum(&start.sheet, lent).filter(|&(_, sum)| !fits(sum)) else {
            return;
        };
        if stop == 6 {
            self.denied_overflows += 1;
            return;
        }
        let (add, above) = (command == Command::Add, sum > 0);
        let met = [
            add && above,
            add && !above,
            !add && above,
            !add && !above,
            sum == i128::from(i64::MAX) + 1,
            sum == i128::from(i64::MIN) - 1,
            label != 0,
        ];
        for (count, met) in self.overflows.iter_mut().zip(met) {
            *count += u64::from(met);
        }
    }

    fn note_output_to(&mut self, met: [bool; OUTPUT_TO.len()]) {
        for (count, met) in self.output_to.iter_mut().zip(met) {
            *count += u64::from(met);
        }
    }

    /// What was met of ends, full space, OutputTo, overflows, clearances and calls, by name.
    fn details(&self) -> impl Iterator<Item = (&'static str, u64)> + '_ {
        let names = ENDS.into_iter().chain(FULL).chain(OUTPUT_TO).chain(OVERFLOWS);
        let counts = self.ends.iter().chain(&self.full).chain(&self.output_to).chain(&self.overflows);
        names.zip(counts.copied()).chain(self.clearances.either()).chain(self.calls.either())
    }

    /// What the tag engine alone can meet of clearances and calls, by name.
    fn tagged_details(&self) -> impl Iterator<Item = (&'static str, u64)> + '_ {
        self.clearances.tagged().chain(self.calls.tagged())
    }
}

/// What a refusal of a sheet is of [`OUTPUT_TO`].
fn refused_at_output_to(sheet: &[u8], refusal: u64, place: usize) -> [bool; OUTPUT_TO.len()] {
    let is_sheet = [1, 3, 12].contains(&refusal) && sheet[place] == 0x0c;
    let page = sheet.get(place + 1).copied().filter(|_| is_sheet);
    let over = |least| page.is_some_and(|page| page >= least);
    let is = |number| is_sheet && refusal == number;
    // Whether what stands after the page would be refused too.
    let later = is(12) && decode(&sheet[place + 2..]).is_err();
    [false, false, is(1) && over(16), is(3), is(12) && page == Some(16), is(12) && over(128), later]
}

#[derive(Clone, Default)]
pub struct Tally {
    pub plain: Engine,
    pub tagged: Engine,
    /// Commands that were judged on the plain engine, by code.
    pub commands: [u64; 15],
    /// The same at a place whose label is not empty.
    pub hidden: [u64; 15],
    pub carried: Carried,
    /// An OutputTo of a hidden number at a hidden place, on the plain engine.
    pub hidden_output_to: u64,
    /// OutputTos that were carried out on the plain engine, by page.
    pub output_to: [u64; PAGES as usize],
    /// Matches of a row; a command that finds the row of its labels of the other command under its rule.
    pub rows: [u64; ROWS.len()],
    pub starts: [u64; STARTS.len()],
    /// Sums that are a limit, on the plain engine.
    pub limits: [u64; LIMITS.len()],
    /// Refused tables by what is wrong with them.
    pub table_faults: [u64; 7],
    /// Tables of accepted runs that are not the standard one; their longest, deepest, and longest handler.
    pub other_tables: u64,
    pub longest_table: usize,
    pub deepest_table: usize,
    pub longest_handler: usize,
    /// Runs of the tag engine from a rule memory that was not empty.
    pub filled_memories: u64,
    pub pages: u64,
    pub page_bytes: u64,
    /// Pages with an end line, and those with a line that is not on page 0.
    pub page_ends: u64,
    pub other_pages: u64,
    /// Faulty jobs by what is wrong with them.
    pub job_faults: [u64; 5],
    pub job_refusals: u64,
    /// Those of them by 12 and by 14.
    pub job_pages_refused: u64,
    pub job_calls_refused: u64,
    pub short_buffers: u64,
}

impl Tally {
    pub fn judged(&mut self, question: &Question) {
        self.commands[usize::from(question.code)] += 1;
        self.carried.judged(question);
        if question.place != 0 {
            self.hidden[usize::from(question.code)] += 1;
            let hidden = question.inputs[0].is_some_and(|label| label != 0);
            self.hidden_output_to += u64::from(question.code == 0x0c && hidden);
        }
    }

    /// A command that wrote a line.
    pub fn printed(&mut self, command: Command) {
        if let Command::OutputTo(page) = command {
            self.output_to[usize::from(page)] += 1;
        }
    }

    /// The rule memory of a start of the tag engine, and its refusal or 0.
    pub fn started(&mut self, memory: &[i64], table: &Table, refusal: u64) {
        let code = memory.first().copied().unwrap_or(0);
        let with = |code| [&[code], &memory[memory.len().min(1)..]].concat();
        let by_code = refusal == 7 && code == 15 && (1..=14).any(|code| table.accepts(&with(code)));
        let started = |of| refusal == 0 && code == of;
        let met = [started(4), started(12), started(10), started(13), started(14), by_code];
        for (count, met) in self.starts.iter_mut().zip(met) {
            *count += u64::from(met);
        }
    }

    /// What the rule memory held and what it was asked.
    pub fn consulted(&mut self, memory: &RuleMemory, question: &Question) {
        let words = question.words();
        if memory[1..5] == words[1..] {
            let met = ROW_CODES.map(|codes| codes == [memory[0], words[0]]);
            for (count, met) in self.rows.iter_mut().zip(met) {
                *count += u64::from(met);
            }
        }
    }

    /// A sum or difference that is a number.
    pub fn combined(&mut self, command: Command, number: i64) {
        let first = if command == Command::Add { 0 } else { 2 };
        match number {
            i64::MAX => self.limits[first] += 1,
            i64::MIN => self.limits[first + 1] += 1,
            _ => {}
        }
    }

    pub fn table_fault(&mut self, fault: TableFault) {
        self.table_faults[fault as usize] += 1;
    }

    /// A table, not the standard one, under which a run was accepted.
    pub fn other_table(&mut self, table: &Table, handler: usize) {
        self.other_tables += 1;
        self.longest_table = self.longest_table.max(table.bytes().len());
        self.deepest_table = self.deepest_table.max(table.depth());
        self.longest_handler = self.longest_handler.max(handler);
    }

    pub fn job_fault(&mut self, fault: JobFault) {
        self.job_faults[fault as usize] += 1;
    }

    /// What was not reached though it should be.
    pub fn missing(&self) -> Vec<String> {
        let mut missing = Vec::new();
        let mut want = |name: String, count: u64| {
            if count == 0 {
                missing.push(name);
            }
        };
        for (name, engine) in [("plain", &self.plain), ("tagged", &self.tagged)] {
            for (stop, &count) in engine.stops.iter().enumerate() {
                want(format!("{name}: stop {stop}"), count);
            }
            let rules = name == "tagged";
            for number in REFUSALS.into_iter().filter(|number| rules || ![6, 7].contains(number)) {
                want(format!("{name}: refusal {number}"), engine.refusals[number]);
            }
            for place in 1..=if rules { 3 } else { 2 } {
                want(format!("{name}: refusal 8 at {place}"), engine.spaces[place]);
            }
            for (what, count) in engine.details() {
                want(format!("{name}: {what}"), count);
            }
        }
        want("tagged: stop 6 at a sum outside 64 bits".into(), self.tagged.denied_overflows);
        want("tagged: stop 6 at an OutputTo".into(), self.tagged.denied_output_to);
        for (what, count) in self.tagged.tagged_details() {
            want(format!("tagged: {what}"), count);
        }
        for (what, count) in self.carried.returns() {
            want(what.into(), count);
        }
        for (arguments, counts) in self.carried.calls.iter().enumerate() {
            for (results, &count) in counts.iter().enumerate() {
                want(format!("CallN {arguments} {results}"), count);
            }
        }
        for page in 0..PAGES.into() {
            want(format!("OutputTo {page}"), self.output_to[page]);
            want(format!("tagged: a line on page {page}"), self.tagged.pages[page]);
            for (name, engine) in [("plain", &self.plain), ("tagged", &self.tagged)] {
                want(format!("{name}: stop 10 on page {page}"), engine.clearances.pages[page]);
            }
        }
        want("OutputTo of a hidden number at a hidden place".into(), self.hidden_output_to);
        for (what, &count) in ROWS.iter().zip(&self.rows).chain(STARTS.iter().zip(&self.starts)) {
            want((*what).into(), count);
        }
        for (what, &count) in LIMITS.iter().zip(&self.limits) {
            want((*what).into(), count);
        }
        for code in 0x01..=0x0e {
            want(format!("command {code:02x}"), self.commands[code]);
            want(format!("command {code:02x} at a hidden place"), self.hidden[code]);
        }
        for (fault, &count) in TABLE_FAULTS.iter().zip(&self.table_faults) {
            want(format!("{fault:?} in a table"), count);
        }
        for (fault, &count) in JOB_FAULTS.iter().zip(&self.job_faults) {
            want(format!("{fault:?} in a job"), count);
        }
        want("another table than the standard one".into(), self.other_tables);
        want("a table eight deep".into(), u64::from(self.deepest_table == DEPTH));
        want("a rule memory that is not empty".into(), self.filled_memories);
        want("a page with lines".into(), self.page_bytes);
        want("a page with an end line".into(), self.page_ends);
        want("a page without an end line".into(), self.pages - self.page_ends);
        want("a page with lines of other pages than 0".into(), self.other_pages);
        want("a refused job".into(), self.job_refusals);
        want("a job refused by 12".into(), self.job_pages_refused);
        want("a job refused by 14".into(), self.job_calls_refused);
        want("a short page buffer".into(), self.short_buffers);
        missing
    }

    pub fn print(&self) {
        println!("{:>26} {:>12} {:>12}", "", "plain", "tagged");
        let row = |name: String, plain: u64, tagged: u64| println!("{name:>26} {plain:>12} {tagged:>12}");
        for stop in 0..self.plain.stops.len() {
            row(format!("stop {stop}"), self.plain.stops[stop], self.tagged.stops[stop]);
        }
        for ((what, plain), (_, tagged)) in self.plain.details().zip(self.tagged.details()) {
            row(what.into(), plain, tagged);
        }
        row("stop 6 before 9".into(), self.plain.denied_overflows, self.tagged.denied_overflows);
        row("stop 6, OutputTo".into(), self.plain.denied_output_to, self.tagged.denied_output_to);
        for ((what, plain), (_, tagged)) in self.plain.tagged_details().zip(self.tagged.tagged_details()) {
            row(what.into(), plain, tagged);
        }
        for number in REFUSALS {
            row(format!("refusal {number}"), self.plain.refusals[number], self.tagged.refusals[number]);
        }
        for place in 1..4 {
            row(format!("refusal 8 at {place}"), self.plain.spaces[place], self.tagged.spaces[place]);
        }
        row("steps".into(), self.plain.steps, self.tagged.steps);
        row("longest run".into(), self.plain.longest, self.tagged.longest);
        row("lines".into(), self.plain.lines, self.tagged.lines);
        row("faults".into(), self.plain.faults, self.tagged.faults);
        row("kernel steps".into(), self.plain.kernel_steps, self.tagged.kernel_steps);
        println!("{:>26} {:>12} {:>12}", "command", "asked", "hidden place");
        for code in 0x01..=0x0e {
            row(format!("{code:02x}"), self.commands[code], self.hidden[code]);
        }
        println!(
            "OutputTo carried out, by page: {:?}; hidden number and place: {}",
            self.output_to, self.hidden_output_to
        );
        println!("CallN carried out, by arguments and results: {:?}", self.carried.calls);
        for (what, count) in self.carried.returns() {
            println!("{what}: {count}");
        }
        let closed = [&self.plain, &self.tagged].map(|engine| engine.clearances.pages);
        println!("stop 10, by page: plain {:?}, tagged {:?}", closed[0], closed[1]);
        print!("rule memory:");
        for (what, count) in ROWS.iter().zip(&self.rows).chain(STARTS.iter().zip(&self.starts)) {
            print!(" {what}: {count}");
        }
        println!();
        print!("sums at the limits:");
        for (what, count) in LIMITS.iter().zip(&self.limits) {
            print!(" {what}: {count}");
        }
        println!();
        println!(
            "other tables {}: longest {} bytes, {} deep, longest handler {}; filled rule memories {}",
            self.other_tables,
            self.longest_table,
            self.deepest_table,
            self.longest_handler,
            self.filled_memories
        );
        print!("tables refused:");
        for (fault, count) in TABLE_FAULTS.iter().zip(&self.table_faults) {
            print!(" {fault:?} {count}");
        }
        print!(
            "\njobs: pages {} of {} bytes, {} with an end line, {} with other pages than 0, refused {}, by 12 {}, by 14 {}",
            self.pages,
            self.page_bytes,
            self.page_ends,
            self.other_pages,
            self.job_refusals,
            self.job_pages_refused,
            self.job_calls_refused
        );
        for (fault, count) in JOB_FAULTS.iter().zip(&self.job_faults) {
            print!(", {fault:?} {count}");
        }
        println!(", short buffers {}", self.short_buffers);
    }
}
