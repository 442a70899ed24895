//! The machine: its state, its step and its runs (document 01, "Atoms, cells, stack", "Commands", "Stops"; document 02,
//! U1, for the end line, U2, for sums outside 64 bits, U4, for pages, U5, for their clearances, and U6, for calls that
//! bring something back).

use crate::rules::{Labels, Question};
use crate::sheet::{Command, PAGES};
use crate::{flows, Atom, Label};

/// The most entries of the stack.
pub const STACK: usize = 256;

#[derive(Clone, Copy, Debug, PartialEq, Eq)]
pub enum Entry {
    Value(Atom),
    /// A place to return to, and how many results are due there: 0 or 1.
    Frame(Atom, u8),
}

impl Entry {
    /// The three words of the stack space: kind, number, label. The kind is 0 of a value, 1 of a frame with no result
    /// due, 2 of one with a result due.
    pub fn words(self) -> [i64; 3] {
        let (kind, atom) = match self {
            Entry::Value(atom) => (0, atom),
            Entry::Frame(atom, results) => (1 + i64::from(results), atom),
        };
        [kind, atom.number, atom.label.into()]
    }
}

#[derive(Clone, Copy, Debug, PartialEq, Eq, PartialOrd, Ord)]
pub enum Stop {
    End = 0,
    AllowanceSpent = 1,
    PlaceOutside = 2,
    ValueMissing = 3,
    FrameMissing = 4,
    AddressOutside = 5,
    NotAllowed = 6,
    StackFull = 7,
    OutputFull = 8,
    /// Tested after 6 and before 7 and 8.
    Overflow = 9,
    /// Tested after 6 and before 9, 7 and 8; at the sheet's end before 8, both in place of 0.
    NotCleared = 10,
    /// The results due do not match the return. Tested right after 4.
    ResultsDiffer = 11,
}

/// What a line says: a number that an Output or OutputTo dropped, or that the run came to the sheet's end.
#[derive(Clone, Copy, Debug, PartialEq, Eq)]
pub enum Kind {
    Number = 0,
    End = 1,
}

/// A line's record; an end line's number is 0, and it stands on page 0.
#[derive(Clone, Copy, Debug, PartialEq, Eq)]
pub struct Line {
    pub page: u8,
    pub kind: Kind,
    pub number: i64,
    pub label: Label,
}

/// The stack. Entries from `depth` on were dropped and keep their content.
#[derive(Clone, Debug, Default)]
pub struct Stack {
    pub entries: Vec<Entry>,
    pub depth: usize,
}

impl Stack {
    pub fn push(&mut self, entry: Entry) {
        if self.depth < self.entries.len() {
            self.entries[self.depth] = entry;
        } else {
            self.entries.push(entry);
        }
        self.depth += 1;
    }

    pub fn pop(&mut self) -> Option<Entry> {
        self.depth = self.depth.checked_sub(1)?;
        Some(self.entries[self.depth])
    }

    /// The entry `below` entries under the top, if there is one.
    pub fn entry(&self, below: usize) -> Option<Entry> {
        self.depth.checked_sub(1 + below).map(|index| self.entries[index])
    }

    /// The atom `below` entries under the top, where that is a value.
    fn value(&self, below: usize) -> Result<Atom, Stop> {
        match self.entry(below) {
            Some(Entry::Value(atom)) => Ok(atom),
            _ => Err(Stop::ValueMissing),
        }
    }

    /// The place of the frame `below` entries under the top, where there is a frame with so many results due.
    fn frame(&self, below: usize, results: u8) -> Result<Atom, Stop> {
        match self.entry(below) {
            Some(Entry::Frame(atom, due)) if due == results => Ok(atom),
            Some(Entry::Frame(..)) => Err(Stop::ResultsDiffer),
            _ => Err(Stop::FrameMissing),
        }
    }

    /// Drops a call's target and puts a frame under the arguments, which stay above it in their order.
    pub fn call(&mut self, arguments: usize, frame: Entry) {
        self.pop();
        let above: Vec<Entry> = (0..arguments).filter_map(|_| self.pop()).collect();
        self.push(frame);
        for argument in above.into_iter().rev() {
            self.push(argument);
        }
    }

    /// Drops a value and the frame under it, and puts what is brought back on top. The old top entry keeps its words.
    pub fn bring_back(&mut self, result: Atom) {
        self.pop();
        self.pop();
        self.push(Entry::Value(result));
    }
}

/// The owners that each page is cleared for.
pub type Clearances = [Label; PAGES as usize];

/// Where lines go: the pages of a run, which share their room.
#[derive(Clone, Debug)]
pub struct Pages {
    pub lines: Vec<Line>,
    /// How many lines the output space holds, the end line among them.
    pub room: usize,
    pub clearances: Clearances,
}

impl Pages {
    /// The owners that may know of a line on this page.
    pub fn clearance(&self, page: u8) -> Label {
        self.clearances[usize::from(page)]
    }

    pub fn is_full(&self) -> bool {
        self.lines.len() >= self.room
    }

    /// Puts a line out if its page is cleared for it and there is room, which are tested in this order.
    pub fn write(&mut self, line: Line) -> Result<(), Stop> {
        if !flows(line.label, self.clearance(line.page)) {
            return Err(Stop::NotCleared);
        }
        if self.is_full() {
            return Err(Stop::OutputFull);
        }
        self.lines.push(line);
        Ok(())
    }
}

/// What an Add or a Sub comes to, as a whole number.
pub fn whole(command: Command, top: i64, under: i64) -> i128 {
    let (top, under) = (i128::from(top), i128::from(under));
    if command == Command::Add {
        top + under
    } else {
        top - under
    }
}

/// Who says what is allowed: the standard rules, a table, or a rule memory before a handler.
pub trait Judge {
    fn judge(&mut self, question: &Question) -> Option<Labels>;

    /// The atoms that the command works on, or what is missing. A method, so that a test can have it wrong.
    fn inputs(&mut self, machine: &Machine, command: Command) -> Result<Vec<Atom>, Stop> {
        machine.inputs(command)
    }

    /// The number that an allowed Add or Sub gives, unless it is outside 64 bits. A method, so that a test can count
    /// these, or have them wrong.
    fn combine(&mut self, command: Command, top: i64, under: i64) -> Option<i64> {
        i64::try_from(whole(command, top, under)).ok()
    }

    /// Puts a line out or stops it, the end line too. A method, so that a test can have it wrong.
    fn write(&mut self, pages: &mut Pages, line: Line) -> Result<(), Stop> {
        pages.write(line)
    }

    /// Carries out an allowed call on the stack. A method, so that a test can count these, or have them wrong.
    fn call(&mut self, stack: &mut Stack, _command: Command, arguments: usize, frame: Entry) {
        stack.call(arguments, frame);
    }

    /// Carries out an allowed RetV on the stack. A method for the same reason.
    fn bring_back(&mut self, stack: &mut Stack, result: Atom) {
        stack.bring_back(result);
    }

    /// Told of every line that a command writes, for tests that count or follow them.
    fn printed(&mut self, _place: i64, _command: Command) {}
}

/// A function of the question alone is a judge.
impl<F: FnMut(&Question) -> Option<Labels>> Judge for F {
    fn judge(&mut self, question: &Question) -> Option<Labels> {
        self(question)
    }
}

#[derive(Clone, Debug)]
pub struct Machine {
    pub place: i64,
    pub place_label: Label,
    pub stack: Stack,
    pub cells: Vec<Atom>,
    pub pages: Pages,
}

impl Machine {
    pub fn new(cells: Vec<Atom>, clearances: Clearances, room: usize) -> Machine {
        let pages = Pages { lines: Vec::new(), room, clearances };
        Machine { place: 0, place_label: 0, stack: Stack::default(), cells, pages }
    }

    fn cell(&self, address: i64) -> Result<usize, Stop> {
        usize::try_from(address).ok().filter(|&index| index < self.cells.len()).ok_or(Stop::AddressOutside)
    }

    /// The atoms that the command works on, in the order of its inputs.
    pub fn inputs(&self, command: Command) -> Result<Vec<Atom>, Stop> {
        use Command::*;
        Ok(match command {
            Push(_) => vec![],
            Pop | Output | OutputTo(_) | Jump | Bnz(_) => vec![self.stack.value(0)?],
            Add | Sub => vec![self.stack.value(0)?, self.stack.value(1)?],
            Load => {
                let address = self.stack.value(0)?;
                vec![address, self.cells[self.cell(address.number)?]]
            }
            Store => {
                let address = self.stack.value(0)?;
                let number = self.stack.value(1)?;
                vec![address, number, self.cells[self.cell(address.number)?]]
            }
            Call | CallN(..) => {
                let (arguments, _) = command.call().expect("it is a call");
                let target = self.stack.value(0)?;
                for argument in 1..=arguments {
                    self.stack.value(argument)?;
                }
                vec![target]
            }
            Ret => vec![self.stack.frame(0, 0)?],
            RetV => vec![self.stack.value(0)?, self.stack.frame(1, 1)?],
        })
    }

    /// Carries out one command, or stops before it.
    pub fn step(&mut self, command: Command, judge: &mut impl Judge) -> Result<(), Stop> {
        use Command::*;
        let atoms = judge.inputs(self, command)?;
        let mut inputs = [None; 3];
        for (input, atom) in inputs.iter_mut().zip(&atoms) {
            *input = Some(atom.label);
        }
        let question = Question { code: command.code(), place: self.place_label, inputs };
        let labels = judge.judge(&question).ok_or(Stop::NotAllowed)?;
        let result = |number| Atom { number, label: labels.result };
        let mut next = self.place + 1;
        match command {
            Push(number) => {
                if self.stack.depth == STACK {
                    return Err(Stop::StackFull);
                }
                self.stack.push(Entry::Value(result(number)));
            }
            Output | OutputTo(_) => {
                let page = if let OutputTo(page) = command { page } else { 0 };
                let Atom { number, label } = result(atoms[0].number);
                judge.write(&mut self.pages, Line { page, kind: Kind::Number, number, label })?;
                judge.printed(self.place, command);
                self.stack.pop();
            }
            Pop => {
                self.stack.pop();
            }
            Add | Sub => {
                let number = judge.combine(command, atoms[0].number, atoms[1].number);
                let number = number.ok_or(Stop::Overflow)?;
                self.stack.pop();
                self.stack.pop();
                self.stack.push(Entry::Value(result(number)));
            }
            Load => {
                self.stack.pop();
                self.stack.push(Entry::Value(result(atoms[1].number)));
            }
            Store => {
                self.stack.pop();
                self.stack.pop();
                let index = self.cell(atoms[0].number)?;
                self.cells[index] = result(atoms[1].number);
            }
            Jump | Ret => {
                self.stack.pop();
                next = atoms[0].number;
            }
            Bnz(distance) => {
                self.stack.pop();
                if atoms[0].number != 0 {
                    next = self.place + i64::from(distance);
                }
            }
            Call | CallN(..) => {
                let (arguments, results) = command.call().expect("it is a call");
                let frame = Entry::Frame(result(self.place + 1), results);
                judge.call(&mut self.stack, command, arguments, frame);
                next = atoms[0].number;
            }
            RetV => {
                judge.bring_back(&mut self.stack, result(atoms[0].number));
                next = atoms[1].number;
            }
        }
        self.place = next;
        self.place_label = labels.place;
        Ok(())
    }

    /// What the end of the sheet comes to: its line on page 0, or what stops that line. It is no step, and no rule is
    /// asked.
    fn end(&mut self, judge: &mut impl Judge) -> Stop {
        let line = Line { page: 0, kind: Kind::End, number: 0, label: self.place_label };
        match judge.write(&mut self.pages, line) {
            Ok(()) => Stop::End,
            Err(stop) => stop,
        }
    }

    /// Steps until a stop: which, and how many commands were carried out.
    pub fn run(&mut self, commands: &[Command], allowance: u64, judge: &mut impl Judge) -> (Stop, u64) {
        let mut steps = 0;
        loop {
            if self.place == commands.len() as i64 {
                return (self.end(judge), steps);
            }
            if steps == allowance {
                return (Stop::AllowanceSpent, steps);
            }
            let command = usize::try_from(self.place).ok().and_then(|place| commands.get(place));
            let Some(&command) = command else {
                return (Stop::PlaceOutside, steps);
            };
            if let Err(stop) = self.step(command, judge) {
                return (stop, steps);
            }
            steps += 1;
        }
    }
}
