//! Refusals and stops by name.

use crate::sys::{RawResult, RawWritten};
use std::error::Error;
use std::fmt;

/// A lent space that is too short.
#[derive(Clone, Copy, Debug, PartialEq, Eq)]
pub enum Space {
    Program = 1,
    Stack = 2,
    Handler = 3,
    /// The buffer that a sheet or a text is written to.
    Buffer = 4,
}

/// A start that breaks a limit, or a text or a sheet that cannot be had in the other form. Nothing ran, and nothing that
/// was lent changed.
#[derive(Clone, Copy, Debug, PartialEq, Eq)]
pub enum Refusal {
    /// A 4,097th command, at this byte of the sheet.
    TooManyCommands {
        offset: u64,
    },
    /// A code that is not 01 to 0e.
    UnknownCode {
        offset: u64,
    },
    /// A command whose operand is cut off.
    CutOperand {
        offset: u64,
    },
    /// An OutputTo whose page is over 15.
    Page {
        offset: u64,
    },
    /// A CallN of more than 15 arguments or more than one result.
    Call {
        offset: u64,
    },
    /// Two runs of cells of different lengths (the shorter), or more than 1,024 cells (1,024).
    CellCount {
        place: u64,
    },
    /// A label word outside 0 to 2^32−1, first at this cell.
    LabelOutside {
        cell: u64,
    },
    /// A clearance word outside 0 to 2^32−1, first at this page, or another number of them than sixteen (16).
    Clearance {
        page: u64,
    },
    /// Bytes that are no rule table: the first faulty one, or 512 where there are more.
    RuleTable {
        offset: u64,
    },
    /// A rule memory that is neither empty nor an allowed row of the table.
    RuleMemory,
    ShortSpace(Space),
    /// An allowance over 1,000,000.
    Allowance,
    /// A 4,097th line of a text.
    TooManyLines {
        line: u64,
    },
    /// A line of a text that is not a command's name and its operands, one space before each. Lines count from 1.
    BadLine {
        line: u64,
    },
    /// A line of a text whose operand is outside its command's range.
    OperandOutside {
        line: u64,
    },
}

/// How an accepted run ended. `End` is the sheet's end with its line written; where page 0 is not cleared for that line
/// it is `NotCleared`, else without room for it `OutputFull`.
#[derive(Clone, Copy, Debug, PartialEq, Eq)]
pub enum Stop {
    End = 0,
    AllowanceSpent = 1,
    PlaceOutside = 2,
    ValueMissing = 3,
    FrameMissing = 4,
    AddressOutside = 5,
    NotAllowed = 6,
    StackFull = 7,
    OutputFull = 8,
    /// A sum or difference outside 64 bits; tested after `NotAllowed`, before the two that are full.
    Overflow = 9,
    /// A line whose label is not inside its page's clearance; tested after `NotAllowed`, before `OutputFull`.
    NotCleared = 10,
    /// A Ret to a frame with a result due, or a RetV to one with none; tested after `FrameMissing`.
    ResultsDiffer = 11,
}

/// What an accepted run came to. Faults and kernel steps are 0 from the plain engine.
#[derive(Clone, Copy, Debug, PartialEq, Eq)]
pub struct Report {
    pub stop: Stop,
    pub steps: u64,
    /// The number of the next command, and the place's label.
    pub place: i64,
    pub place_label: u32,
    pub depth: usize,
    /// Lines written, the end line among them.
    pub lines: usize,
    pub faults: u64,
    pub kernel_steps: u64,
}

impl Refusal {
    /// The refusal's number, as docs/MANUAL.md lists them.
    pub fn number(self) -> u64 {
        match self {
            Refusal::TooManyCommands { .. } | Refusal::TooManyLines { .. } => 1,
            Refusal::UnknownCode { .. } => 2,
            Refusal::CutOperand { .. } => 3,
            Refusal::CellCount { .. } => 4,
            Refusal::LabelOutside { .. } => 5,
            Refusal::RuleTable { .. } => 6,
            Refusal::RuleMemory => 7,
            Refusal::ShortSpace(_) => 8,
            Refusal::Allowance => 9,
            Refusal::BadLine { .. } => 10,
            Refusal::OperandOutside { .. } => 11,
            Refusal::Page { .. } => 12,
            Refusal::Clearance { .. } => 13,
            Refusal::Call { .. } => 14,
        }
    }

    /// The refusal's place, as docs/MANUAL.md says it for its number.
    pub fn place(self) -> u64 {
        match self {
            Refusal::TooManyCommands { offset }
            | Refusal::UnknownCode { offset }
            | Refusal::CutOperand { offset }
            | Refusal::Page { offset }
            | Refusal::Call { offset }
            | Refusal::RuleTable { offset } => offset,
            Refusal::CellCount { place } => place,
            Refusal::LabelOutside { cell } => cell,
            Refusal::Clearance { page } => page,
            Refusal::ShortSpace(space) => space as u64,
            Refusal::RuleMemory | Refusal::Allowance => 0,
            Refusal::TooManyLines { line } | Refusal::BadLine { line } | Refusal::OperandOutside { line } => {
                line
            }
        }
    }
}

/// As `page` prints it, and for those who write texts in words too.
impl fmt::Display for Refusal {
    fn fmt(&self, out: &mut fmt::Formatter) -> fmt::Result {
        write!(out, "refused {} {}", self.number(), self.place())?;
        match self {
            Refusal::TooManyLines { line } => write!(out, ": line {line} is one too many"),
            Refusal::BadLine { line } => write!(out, ": line {line} is not a command with its operands"),
            Refusal::OperandOutside { line } => {
                write!(out, ": line {line} has an operand outside its command's range")
            }
            Refusal::ShortSpace(Space::Buffer) => out.write_str(": the buffer is too short"),
            _ => Ok(()),
        }
    }
}

impl Error for Refusal {}

impl Stop {
    /// The stop's number, as docs/MANUAL.md lists them.
    pub fn number(self) -> u64 {
        self as u64
    }
}

impl fmt::Display for Stop {
    fn fmt(&self, out: &mut fmt::Formatter) -> fmt::Result {
        out.write_str(match self {
            Stop::End => "the end",
            Stop::AllowanceSpent => "allowance spent",
            Stop::PlaceOutside => "place outside the sheet",
            Stop::ValueMissing => "a value needed, none there",
            Stop::FrameMissing => "a frame needed, none there",
            Stop::AddressOutside => "address outside the cells",
            Stop::NotAllowed => "not allowed",
            Stop::StackFull => "stack full",
            Stop::OutputFull => "output space full",
            Stop::Overflow => "result outside 64 bits",
            Stop::NotCleared => "line not cleared for its page",
            Stop::ResultsDiffer => "results due do not match the return",
        })
    }
}

impl RawResult {
    /// The answer by name. Numbers that the interface does not have would mean another archive, and end the program.
    pub fn named(self) -> Result<Report, Refusal> {
        match self.refusal {
            0 => Ok(report(self)),
            number => Err(refusal(number, self.position)),
        }
    }
}

impl RawWritten {
    /// What listing a sheet came to: the text's length, or the refusal by name.
    pub fn listed(self) -> Result<usize, Refusal> {
        match self.refusal {
            0 => Ok(self.length as usize),
            number => Err(refusal(number, self.position)),
        }
    }

    /// What reading a text came to: the sheet's length, or the refusal by name. Here refusal 1 is of a line.
    pub fn assembled(self) -> Result<usize, Refusal> {
        match self.refusal {
            1 => Err(Refusal::TooManyLines { line: self.position }),
            _ => self.listed(),
        }
    }
}

fn refusal(number: u64, place: u64) -> Refusal {
    match number {
        1 => Refusal::TooManyCommands { offset: place },
        2 => Refusal::UnknownCode { offset: place },
        3 => Refusal::CutOperand { offset: place },
        4 => Refusal::CellCount { place },
        5 => Refusal::LabelOutside { cell: place },
        6 => Refusal::RuleTable { offset: place },
        7 => Refusal::RuleMemory,
        8 => Refusal::ShortSpace(match place {
            1 => Space::Program,
            2 => Space::Stack,
            3 => Space::Handler,
            4 => Space::Buffer,
            _ => panic!("space {place} is not of this interface"),
        }),
        9 => Refusal::Allowance,
        10 => Refusal::BadLine { line: place },
        11 => Refusal::OperandOutside { line: place },
        12 => Refusal::Page { offset: place },
        13 => Refusal::Clearance { page: place },
        14 => Refusal::Call { offset: place },
        _ => panic!("refusal {number} is not of this interface"),
    }
}

fn report(raw: RawResult) -> Report {
    let stop = match raw.stop {
        0 => Stop::End,
        1 => Stop::AllowanceSpent,
        2 => Stop::PlaceOutside,
        3 => Stop::ValueMissing,
        4 => Stop::FrameMissing,
        5 => Stop::AddressOutside,
        6 => Stop::NotAllowed,
        7 => Stop::StackFull,
        8 => Stop::OutputFull,
        9 => Stop::Overflow,
        10 => Stop::NotCleared,
        11 => Stop::ResultsDiffer,
        number => panic!("stop {number} is not of this interface"),
    };
    Report {
        stop,
        steps: raw.steps,
        place: raw.pc,
        place_label: u32::try_from(raw.pc_label).expect("labels have 32 bits"),
        depth: raw.depth as usize,
        lines: raw.lines as usize,
        faults: raw.faults,
        kernel_steps: raw.kernel_steps,
    }
}
