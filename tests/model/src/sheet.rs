//! Sheets: commands and their bytes (document 01, "Commands" and refusals 1 to 3; document 02, U4, for OutputTo and
//! refusal 12, and U6, for CallN, RetV and refusal 14).

use crate::Refusal;

/// The most commands a sheet may have.
pub const COMMANDS: usize = 4096;
/// The pages of a run: their numbers are 0 to 15.
pub const PAGES: u8 = 16;
/// The most arguments of a call.
pub const ARGUMENTS: u8 = 15;
/// The most results of a call.
pub const RESULTS: u8 = 1;

#[derive(Clone, Copy, Debug, PartialEq, Eq)]
pub enum Command {
    Add,
    Sub,
    Pop,
    Output,
    Push(i64),
    Load,
    Store,
    Jump,
    Bnz(i16),
    Call,
    Ret,
    /// Its operand is a page. A sheet that has one over 15 is refused.
    OutputTo(u8),
    /// Its operands are how many arguments there are and how many results are due. A sheet that has one over 15 or over
    /// 1 is refused.
    CallN(u8, u8),
    RetV,
}

use Command::*;

/// Each command once, with operands 0 where it has any.
pub const EACH: [Command; 14] =
    [Add, Sub, Pop, Output, Push(0), Load, Store, Jump, Bnz(0), Call, Ret, OutputTo(0), CallN(0, 0), RetV];

impl Command {
    /// The command's name, as documents 01 and 02 spell it.
    pub fn name(self) -> &'static str {
        match self {
            Add => "Add",
            Sub => "Sub",
            Pop => "Pop",
            Output => "Output",
            Push(_) => "Push",
            Load => "Load",
            Store => "Store",
            Jump => "Jump",
            Bnz(_) => "Bnz",
            Call => "Call",
            Ret => "Ret",
            OutputTo(_) => "OutputTo",
            CallN(..) => "CallN",
            RetV => "RetV",
        }
    }

    /// The command's code on sheets and in the rule memory.
    pub fn code(self) -> u8 {
        match self {
            Add => 0x01,
            Sub => 0x02,
            Pop => 0x03,
            Output => 0x04,
            Push(_) => 0x05,
            Load => 0x06,
            Store => 0x07,
            Jump => 0x08,
            Bnz(_) => 0x09,
            Call => 0x0a,
            Ret => 0x0b,
            OutputTo(_) => 0x0c,
            CallN(..) => 0x0d,
            RetV => 0x0e,
        }
    }

    /// The command's operands, in their order on sheets.
    pub fn operands(self) -> Vec<i64> {
        match self {
            Push(number) => vec![number],
            Bnz(distance) => vec![distance.into()],
            OutputTo(page) => vec![page.into()],
            CallN(arguments, results) => vec![arguments.into(), results.into()],
            _ => vec![],
        }
    }

    /// The two words of the command space: code, and operand or 0; of two operands 16 times the first plus the second.
    pub fn words(self) -> [i64; 2] {
        let operand = match self.operands()[..] {
            [] => 0,
            [operand] => operand,
            [arguments, results] => 16 * arguments + results,
            _ => panic!("no command has three operands"),
        };
        [self.code().into(), operand]
    }

    /// Of a call, how many arguments it has and how many results are due; an old Call has one argument and no result.
    pub fn call(self) -> Option<(usize, u8)> {
        match self {
            Call => Some((1, 0)),
            CallN(arguments, results) => Some((arguments.into(), results)),
            _ => None,
        }
    }
}

/// How many inputs the command of this code supplies.
pub fn inputs_of(code: u8) -> usize {
    match code {
        0x05 => 0,
        0x03 | 0x04 | 0x08 | 0x09 | 0x0a | 0x0b | 0x0c | 0x0d => 1,
        0x01 | 0x02 | 0x06 | 0x0e => 2,
        0x07 => 3,
        _ => panic!("code {code} is no command"),
    }
}

/// The commands of a sheet, or the first refusal from the left.
pub fn decode(sheet: &[u8]) -> Result<Vec<Command>, Refusal> {
    let mut commands = Vec::new();
    let mut offset = 0;
    while let Some(&code) = sheet.get(offset) {
        if commands.len() == COMMANDS {
            return Err(Refusal::new(1, offset));
        }
        let rest = &sheet[offset + 1..];
        let (command, width) = match code {
            0x01 => (Some(Add), 0),
            0x02 => (Some(Sub), 0),
            0x03 => (Some(Pop), 0),
            0x04 => (Some(Output), 0),
            0x05 => {
                let operand = rest.first_chunk();
                (operand.map(|bytes| Push(i64::from_le_bytes(*bytes))), 8)
            }
            0x06 => (Some(Load), 0),
            0x07 => (Some(Store), 0),
            0x08 => (Some(Jump), 0),
            0x09 => {
                let operand = rest.first_chunk();
                (operand.map(|bytes| Bnz(i16::from_le_bytes(*bytes))), 2)
            }
            0x0a => (Some(Call), 0),
            0x0b => (Some(Ret), 0),
            0x0c => (rest.first().map(|&page| OutputTo(page)), 1),
            0x0d => (rest.first_chunk().map(|&[arguments, results]| CallN(arguments, results)), 2),
            0x0e => (Some(RetV), 0),
            _ => return Err(Refusal::new(2, offset)),
        };
        match command.ok_or(Refusal::new(3, offset))? {
            OutputTo(PAGES..) => return Err(Refusal::new(12, offset)),
            CallN(arguments, results) if arguments > ARGUMENTS || results > RESULTS => {
                return Err(Refusal::new(14, offset));
            }
            command => commands.push(command),
        }
        offset += 1 + width;
    }
    Ok(commands)
}

/// The bytes of a list of commands.
pub fn encode(commands: &[Command]) -> Vec<u8> {
    let mut bytes = Vec::new();
    for command in commands {
        bytes.push(command.code());
        match command {
            Push(number) => bytes.extend(number.to_le_bytes()),
            Bnz(distance) => bytes.extend(distance.to_le_bytes()),
            OutputTo(page) => bytes.push(*page),
            CallN(arguments, results) => bytes.extend([arguments, results]),
            _ => {}
        }
    }
    bytes
}
