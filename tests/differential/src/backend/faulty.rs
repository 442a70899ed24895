//! The model with one deliberate fault, on which the tests are tried.

mod calls;
mod clearances;

use self::clearances::Asked;
use super::faults::{of_calls, Fault};
use super::{fits, model_page, page_from, put_page, Answer, Backend, Itself, PAGE_LIMIT};
use model::engine::{judged, tagged, Handler, Lent, Report};
use model::kernel;
use model::machine::{whole, Entry, Judge, Kind, Line, Machine, Pages, Stack, Stop};
use model::page::{page, printed, read};
use model::rules::{standard, Labels, Question, RuleMemory, Table};
use model::sheet::{decode, Command};
use model::{flows, Atom, Label, Refusal};

/// The model with one fault.
pub struct Faulty(pub Fault);

impl Faulty {
    /// The standard rules with the fault.
    fn rule(&self, question: &Question) -> Option<Labels> {
        let right = standard(question);
        let input = |index: usize| question.inputs[index].unwrap_or(0);
        match (self.0, question.code) {
            (Fault::OutputWithoutPlace, 0x04) => Some(Labels { result: input(0), ..right? }),
            (Fault::OutputToWithoutPlace, 0x0c) => Some(Labels { result: input(0), ..right? }),
            (Fault::OutputToDenied, 0x0c) => None,
            (Fault::BranchWithoutPlace, 0x09) => Some(Labels { place: question.place, ..right? }),
            (Fault::StoreOnNewLabel, 0x07) => {
                let result = input(0) | input(1) | question.place;
                flows(input(0) | question.place, result).then_some(Labels { place: question.place, result })
            }
            (Fault::RetKeepsPlace, 0x0b) => Some(Labels { place: input(0) | question.place, ..right? }),
            (Fault::RetVWithoutPlace, 0x0e) => Some(Labels { result: input(0), ..right? }),
            (Fault::RetVKeepsPlace, 0x0e) => Some(Labels { place: question.place, ..right? }),
            (Fault::RetVPlaceOfBoth, 0x0e) => Some(Labels { place: input(0) | input(1), ..right? }),
            (Fault::RetVUnderRet, 0x0e) => Some(Labels { place: input(0), result: 0 }),
            (Fault::FrameRaised, 0x0d) => Some(Labels { result: input(0) | question.place, ..right? }),
            _ => right,
        }
    }

    /// What the check of a sheet comes to: the sheet that is run in its place, or the refusal.
    fn check(&self, sheet: &[u8]) -> Result<Vec<u8>, Refusal> {
        let mut sheet = sheet.to_vec();
        let mut last = None;
        if let Some(refusal) = self.0.refuses(&sheet) {
            return Err(refusal);
        }
        while let Err(refusal) = decode(&sheet) {
            let at = refusal.place as usize;
            match (self.0, refusal.number) {
                (Fault::PageBeforeCut, 3) if sheet[at] == 0x0c => return Err(Refusal::new(12, at)),
                (Fault::PageOffset, 12) => return Err(Refusal::new(12, at + 1)),
                (Fault::PageSixteen, 12) if sheet[at + 1] == 16 => sheet[at + 1] = 15,
                (Fault::PageSigned, 12) if sheet[at + 1] > 127 => sheet[at + 1] = 0,
                (Fault::PageCheckedLast, 12) => {
                    last.get_or_insert(refusal);
                    sheet[at + 1] = 0;
                }
                (Fault::CallCheckedLast, 14) => {
                    last.get_or_insert(refusal);
                    sheet[at + 1..at + 3].fill(0);
                }
                (fault, 14) => match fault.passes([sheet[at + 1], sheet[at + 2]]) {
                    Some(operands) => sheet[at + 1..at + 3].copy_from_slice(&operands),
                    None => return Err(fault.refusal_of_call(at)),
                },
                _ => return Err(refusal),
            }
        }
        last.map_or(Ok(sheet), Err)
    }

    /// Puts the fault into the page words of a run's lines, given the places of the commands that wrote them.
    fn page_lines(&self, sheet: &[u8], printers: &[i64], came: &Lent, lent: &mut Lent) {
        let commands = decode(sheet).unwrap_or_default();
        for (line, &place) in printers.iter().enumerate() {
            let place = place as usize;
            let by_output = commands[place] == Command::Output;
            match self.0 {
                Fault::PageKept if by_output && line > 0 => lent.pages[line] = lent.pages[line - 1],
                Fault::PageUnwritten if by_output => lent.pages[line] = came.pages[line],
                Fault::PageOfOperandBefore if by_output && place > 0 => {
                    lent.pages[line] = commands[place - 1].words()[1];
                }
                Fault::PageLost => lent.pages[line] = 0,
                _ => {}
            }
        }
    }

    /// A run with the fault in what its end, its room, an overflow and a line that is not cleared come to.
    fn ending<F: FnOnce(&mut Lent) -> Answer>(
        &self,
        sheet: &[u8],
        lent: &mut Lent,
        fuel: u64,
        run: F,
    ) -> Answer {
        let came = lent.clone();
        let (kinds, pages) = (came.kinds.len(), came.pages.len());
        let room = came.numbers.len().min(came.line_labels.len());
        match self.0 {
            Fault::RoomWithoutKinds => lent.kinds.resize(kinds.max(room.min(pages)), 0),
            Fault::RoomWithoutPages => lent.pages.resize(pages.max(room.min(kinds)), 0),
            _ => {}
        }
        let mut answer = run(lent);
        lent.kinds.truncate(kinds);
        lent.pages.truncate(pages);
        if answer.words[0] == 0 {
            self.0.call_words(sheet, lent);
        }
        let sum = answer.sum(sheet, lent).map(|(_, whole)| whole).filter(|&whole| !fits(whole));
        let [refusal, _, stop, steps, pc, label, depth, lines, _, _] = &mut answer.words;
        if *refusal != 0 {
            return answer;
        }
        let at_end = decode(sheet).is_ok_and(|commands| commands.len() as u64 == *pc);
        let spent = *steps == fuel;
        let next = *lines as usize;
        match (self.0, *stop) {
            (Fault::LineTooMany, _) if next < lent.numbers.len() => lent.numbers[next] = 0,
            (Fault::EndUnlabelled, 0) => lent.line_labels[next - 1] = 0,
            (Fault::EndWhereSpent, 1) if next < lent.room() => {
                lent.numbers[next] = 0;
                lent.line_labels[next] = *label as i64;
                lent.kinds[next] = Kind::End as i64;
                lent.pages[next] = 0;
                *lines += 1;
            }
            (Fault::EndOnLastPage, 0) if next > 1 => lent.pages[next - 1] = lent.pages[next - 2],
            (Fault::EndWithoutRoom, 8) if at_end => *stop = 0,
            (Fault::EndIsStep, 0) => *steps += 1,
            (Fault::EndNeedsAllowance, 0) if spent => {
                lent.numbers[next - 1] = came.numbers[next - 1];
                lent.line_labels[next - 1] = came.line_labels[next - 1];
                lent.kinds[next - 1] = came.kinds[next - 1];
                lent.pages[next - 1] = came.pages[next - 1];
                *lines -= 1;
                *stop = 1;
            }
            (Fault::OverflowBeforeDenied, 6) if sum.is_some() => *stop = 9,
            (Fault::OverflowDrops, 9) => *depth -= 2,
            (Fault::OverflowIsStep, 9) => *steps += 1,
            (Fault::OverflowLeavesSum, 9) => {
                let whole = sum.expect("stop 9 is of a sum outside 64 bits");
                lent.stack[3 * (*depth as usize - 2) + 1] = whole as i64;
            }
            (Fault::EndSpentBeforeCleared, 10) if at_end && spent => *stop = 1,
            (Fault::UnclearedIsStep, 10) if !at_end => *steps += 1,
            (Fault::UnclearedDrops, 10) if !at_end => *depth -= 1,
            _ => {}
        }
        answer
    }
}

impl Fault {
    /// Whether the fault is in what becomes of lines, calls and returns, or in what the rule memory holds.
    fn is_of_rows(self) -> bool {
        of_calls().contains(&self)
            || matches!(
                self,
                Fault::OutputToDenied
                    | Fault::OutputToAsOutput
                    | Fault::OutputRowTaken
                    | Fault::OutputToRowTaken
                    | Fault::UnclearedLeftOut
                    | Fault::ClearanceOfPageZero
                    | Fault::ClearanceBackwards
                    | Fault::ClearedWithoutPlace
                    | Fault::PageZeroUncleared
                    | Fault::MatchUncleared
                    | Fault::FullBeforeCleared
                    | Fault::EndFullBeforeCleared
                    | Fault::EndUncleared
                    | Fault::EndClearedByLastPage
            )
    }
}

/// The standard rules with the fault, and the places of the commands that wrote lines under them.
struct Rules {
    faulty: Faulty,
    printers: Vec<i64>,
    asked: Asked,
}

impl Judge for Rules {
    fn judge(&mut self, question: &Question) -> Option<Labels> {
        self.asked.input = question.inputs[0].unwrap_or(0);
        self.faulty.rule(question)
    }

    fn inputs(&mut self, machine: &Machine, command: Command) -> Result<Vec<Atom>, Stop> {
        self.faulty.0.inputs(machine, command)
    }

    fn call(&mut self, stack: &mut Stack, command: Command, arguments: usize, frame: Entry) {
        self.faulty.0.call(stack, command, arguments, frame);
    }

    fn bring_back(&mut self, stack: &mut Stack, result: Atom) {
        self.faulty.0.bring_back(stack, result);
    }

    fn write(&mut self, pages: &mut Pages, line: Line) -> Result<(), Stop> {
        self.faulty.0.write(pages, line, self.asked)
    }

    fn printed(&mut self, place: i64, _command: Command) {
        self.printers.push(place);
    }

    fn combine(&mut self, command: Command, top: i64, under: i64) -> Option<i64> {
        let whole = whole(command, top, under);
        let right = i64::try_from(whole).ok();
        let wrapped = Some(whole as i64);
        match self.faulty.0 {
            Fault::SumWraps => wrapped,
            Fault::LargestOutside => right.filter(|&number| number != i64::MAX),
            Fault::SmallestOutside => right.filter(|&number| number != i64::MIN),
            Fault::LargestPassed if whole == i128::from(i64::MAX) + 1 => wrapped,
            Fault::SmallestPassed if whole == i128::from(i64::MIN) - 1 => wrapped,
            Fault::SubTestedBackwards if command == Command::Sub => wrapped.filter(|_| fits(-whole)),
            _ => right,
        }
    }
}

/// A rule memory with the fault in what it holds or in what becomes of lines, calls and returns.
struct Rows<'a> {
    fault: Fault,
    memory: RuleMemory,
    handler: Handler<'a>,
    faults: u64,
    kernel_steps: u64,
    asked: Asked,
}

impl Rows<'_> {
    /// Whether the row is taken for that of these five words.
    fn matches(&self, words: [i64; 5]) -> bool {
        let codes = [self.memory[0], words[0]];
        let taken = match self.fault {
            Fault::OutputRowTaken => codes == [4, 12],
            Fault::OutputToRowTaken => codes == [12, 4],
            Fault::CallRowTaken => codes == [10, 13],
            Fault::CallNRowTaken => codes == [13, 10],
            _ => false,
        };
        (codes[0] == codes[1] || taken) && self.memory[1..5] == words[1..]
    }
}

impl Judge for Rows<'_> {
    fn judge(&mut self, question: &Question) -> Option<Labels> {
        let mut words = question.words();
        words[0] = match (self.fault, words[0]) {
            (Fault::OutputToAsOutput, 12) => 4,
            (Fault::CallNAsCall, 13) => 10,
            (_, code) => code,
        };
        self.asked = Asked { input: question.inputs[0].unwrap_or(0), matched: self.matches(words) };
        if !self.asked.matched {
            self.memory[..5].copy_from_slice(&words);
            self.memory[5..].fill(-1);
            self.faults += 1;
            if self.fault == Fault::OutputToDenied && words[0] == 12 {
                return None;
            }
            let run = kernel::run(self.handler.words, self.handler.count, &mut self.memory);
            self.kernel_steps += run.expect("the handler is as it should be").1;
        }
        let label = |word| Label::try_from(word).ok();
        Some(Labels { place: label(self.memory[5])?, result: label(self.memory[6])? })
    }

    fn inputs(&mut self, machine: &Machine, command: Command) -> Result<Vec<Atom>, Stop> {
        let inputs = self.fault.inputs(machine, command);
        if (self.fault, &inputs) == (Fault::ResultsAfterRule, &Err(Stop::ResultsDiffer)) {
            let question = calls::question(machine, command);
            return Err(self.judge(&question).map_or(Stop::NotAllowed, |_| Stop::ResultsDiffer));
        }
        inputs
    }

    fn call(&mut self, stack: &mut Stack, command: Command, arguments: usize, frame: Entry) {
        self.fault.call(stack, command, arguments, frame);
    }

    fn bring_back(&mut self, stack: &mut Stack, result: Atom) {
        self.fault.bring_back(stack, result);
    }

    fn write(&mut self, pages: &mut Pages, line: Line) -> Result<(), Stop> {
        self.fault.write(pages, line, self.asked)
    }
}

/// A run of the tag engine with the fault in its rule memory or its lines.
fn rows(
    fault: Fault,
    sheet: &[u8],
    handler: Handler,
    lent: &mut Lent,
    clearances: &[i64],
    fuel: u64,
) -> Answer {
    let mut memory = [0; 7];
    memory.copy_from_slice(&lent.rule_memory);
    let mut rows = Rows { fault, memory, handler, faults: 0, kernel_steps: 0, asked: Asked::default() };
    let report = judged(sheet, lent, clearances, fuel, &mut rows);
    lent.rule_memory.copy_from_slice(&rows.memory);
    lent.handler[..2 * handler.count].copy_from_slice(handler.words);
    report.map(|report| Report { faults: rows.faults, kernel_steps: rows.kernel_steps, ..report }).into()
}

impl Faulty {
    /// The plain engine on a sheet that was checked.
    fn plain_run(&self, sheet: &[u8], lent: &mut Lent, clearances: &[i64], fuel: u64) -> Answer {
        self.ending(sheet, lent, fuel, |lent| {
            let came = lent.clone();
            let mut rules = Rules { faulty: Faulty(self.0), printers: Vec::new(), asked: Asked::default() };
            let answer = judged(sheet, lent, clearances, fuel, &mut rules).into();
            self.page_lines(sheet, &rules.printers, &came, lent);
            answer
        })
    }

    /// The tag engine on a sheet that was checked.
    fn tagged_run(
        &self,
        sheet: &[u8],
        table: &[u8],
        lent: &mut Lent,
        clearances: &[i64],
        fuel: u64,
    ) -> Answer {
        let code = lent.rule_memory.first().copied();
        match self.0 {
            Fault::DeniedRowAccepted if lent.rule_memory.ends_with(&[-1, -1]) => lent.rule_memory.fill(0),
            Fault::NextRowAccepted if code == Some(15) => lent.rule_memory[0] = 4,
            _ => {}
        }
        let longer = self.0.table(table);
        let table = &longer[..];
        let mut sample = self.0.handler(table);
        if self.0 == Fault::HandlerAllows {
            sample.allow_all();
        }
        let mut before = lent.clone();
        let run = |lent: &mut Lent, fuel| -> Answer {
            let mut unchanged = lent.clone();
            let answer = tagged(sheet, table, sample.handler(), lent, clearances, fuel).answer;
            if answer.is_err() || !self.0.is_of_rows() {
                return answer.into();
            }
            let answer = rows(self.0, sheet, sample.handler(), &mut unchanged, clearances, fuel);
            *lent = unchanged;
            answer
        };
        let mut answer = self.ending(sheet, lent, fuel, |lent| run(lent, fuel));
        if let (Fault::OverflowUnasked, 9) | (Fault::UnclearedUnasked, 10) = (self.0, answer.words[2]) {
            let spent = run(&mut before, answer.words[3]);
            answer.words[8..].copy_from_slice(&spent.words[8..]);
            lent.rule_memory.copy_from_slice(&before.rule_memory);
        }
        if self.0 == Fault::FaultTooMany && answer.words[8] > 0 {
            answer.words[8] += 1;
        }
        let refused = answer.words[0] != 0;
        if self.0 == Fault::NextRowAccepted && code == Some(15) && refused {
            lent.rule_memory[0] = 15;
        }
        let no_row = match self.0 {
            Fault::OutputToRowRefused => Some(12),
            Fault::CallNRowRefused => Some(13),
            Fault::RetVRowRefused => Some(14),
            _ => None,
        };
        if no_row.is_some() && code == no_row && !refused {
            *lent = before;
            return Err(Refusal::new(7, 0)).into();
        }
        self.stopped_line(&mut answer, sheet, table, lent, clearances);
        answer
    }

    /// Puts the fault into how the tag engine stops at a line that its rule or its page stops.
    fn stopped_line(
        &self,
        answer: &mut Answer,
        sheet: &[u8],
        table: &[u8],
        lent: &mut Lent,
        clearances: &[i64],
    ) {
        let [0, _, stop, _, pc, ..] = answer.words else { return };
        let commands = decode(sheet).unwrap_or_default();
        let Some(page) = page_from(&commands, pc) else { return };
        match (self.0, stop) {
            (Fault::UnclearedBeforeDenied, 6) => {
                let question = Question::of_words(&lent.rule_memory[..5]);
                let table = Table::parse(table).ok();
                let label = question.zip(table).map_or(0, |(question, table)| table.result(&question));
                if !flows(label, clearances[usize::from(page)] as Label) {
                    answer.words[2] = 10;
                }
            }
            (Fault::UnclearedLeavesDenied, 10) if pc < commands.len() as u64 => {
                lent.rule_memory[5..].fill(-1);
            }
            _ => {}
        }
    }
}

impl Backend for Faulty {
    fn plain(&self, sheet: &[u8], lent: &mut Lent, clearances: &[i64], fuel: u64) -> Answer {
        let mut came = lent.clone();
        let answer = match self.check(sheet) {
            Ok(sheet) => self.plain_run(&sheet, lent, &self.0.clearances(clearances), fuel),
            Err(refusal) => Err(refusal).into(),
        };
        self.refused(answer, clearances, |others| self.plain(sheet, &mut came, others, fuel))
    }

    fn tagged(&self, sheet: &[u8], table: &[u8], lent: &mut Lent, clearances: &[i64], fuel: u64) -> Answer {
        let mut came = lent.clone();
        let answer = match self.check(sheet) {
            Ok(sheet) => self.tagged_run(&sheet, table, lent, &self.0.clearances(clearances), fuel),
            Err(refusal) => Err(refusal).into(),
        };
        self.refused(answer, clearances, |others| self.tagged(sheet, table, &mut came, others, fuel))
    }

    fn handler_count(&self, table: &[u8]) -> u64 {
        Itself.handler_count(table)
    }

    fn page(&self, job: &[u8], buffer: &mut [u8]) -> (u64, u64) {
        if buffer.len() < PAGE_LIMIT {
            return model_page(job, buffer);
        }
        let mut text = page(job);
        match self.0 {
            Fault::PageCut => {
                text.pop();
            }
            Fault::EndWithoutPage => text = text.replace("0 end ", "end "),
            Fault::PageInHex => text = text.lines().map(|line| in_hex(line) + "\n").collect(),
            Fault::PageClearsReader => {
                if let Ok(job) = read(job) {
                    text = printed(&job, &[job.reader.into(); 16]);
                }
            }
            _ => {}
        }
        put_page(&text, buffer)
    }
}

/// A line of a page with its first number in hexadecimal.
fn in_hex(line: &str) -> String {
    match line.split_once(' ') {
        Some((page, rest)) => page.parse::<u8>().map_or(line.into(), |page| format!("{page:x} {rest}")),
        None => line.into(),
    }
}
