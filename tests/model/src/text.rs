//! Sheets in text: reading and listing (document 02, U3; U4 for OutputTo, U6 for CallN and RetV).

use crate::sheet::{decode, encode, Command, Command::*, ARGUMENTS, COMMANDS, EACH, PAGES, RESULTS};
use crate::Refusal;

/// What may be wrong with a line.
#[derive(Clone, Copy, Debug, PartialEq, Eq)]
pub enum LineFault {
    /// It is the 4,097th, whatever it holds.
    TooMany,
    UnknownName,
    OperandCount,
    BadOperand,
    /// An operand outside its command's range.
    Outside,
}

impl LineFault {
    /// The refusal's number.
    pub fn number(self) -> u64 {
        match self {
            LineFault::TooMany => 1,
            LineFault::UnknownName | LineFault::OperandCount | LineFault::BadOperand => 10,
            LineFault::Outside => 11,
        }
    }
}

/// The text cut at newlines. What follows the last one is a line only if it is not empty.
pub fn lines(text: &[u8]) -> impl Iterator<Item = &[u8]> {
    let with_newlines = text.split_inclusive(|&byte| byte == b'\n');
    with_newlines.map(|line| line.strip_suffix(b"\n").unwrap_or(line))
}

/// Digits, perhaps after a minus.
fn is_operand(word: &str) -> bool {
    let digits = word.strip_prefix('-').unwrap_or(word);
    !digits.is_empty() && digits.bytes().all(|byte| byte.is_ascii_digit())
}

/// A well-written operand that must not be below 0 or above this.
fn up_to(most: u8, word: &str) -> Result<u8, LineFault> {
    match word.parse::<i64>() {
        Ok(number) if (0..=most.into()).contains(&number) => Ok(number as u8),
        _ => Err(LineFault::Outside),
    }
}

/// The command of a line: its name, then each operand after one space.
pub fn command(line: &[u8]) -> Result<Command, LineFault> {
    // What stands in for bytes that are no UTF-8 is in no name and no operand either.
    let line = String::from_utf8_lossy(line);
    let mut words = line.split(' ');
    let name = words.next().unwrap_or_default();
    let operands: Vec<&str> = words.collect();
    let command = EACH.into_iter().find(|command| command.name() == name).ok_or(LineFault::UnknownName)?;
    if operands.len() != command.operands().len() {
        return Err(LineFault::OperandCount);
    }
    if !operands.iter().all(|word| is_operand(word)) {
        return Err(LineFault::BadOperand);
    }
    // What is left of `parse` to fail at is the range, after any number of digits.
    match command {
        Push(_) => operands[0].parse().map(Push).map_err(|_| LineFault::Outside),
        Bnz(_) => operands[0].parse().map(Bnz).map_err(|_| LineFault::Outside),
        OutputTo(_) => up_to(PAGES - 1, operands[0]).map(OutputTo),
        CallN(..) => Ok(CallN(up_to(ARGUMENTS, operands[0])?, up_to(RESULTS, operands[1])?)),
        _ => Ok(command),
    }
}

/// The commands of a text, or what is wrong with which line, counted from 1.
pub fn read(text: &[u8]) -> Result<Vec<Command>, (LineFault, usize)> {
    let mut commands = Vec::new();
    for (line, number) in lines(text).zip(1..) {
        if number > COMMANDS {
            return Err((LineFault::TooMany, number));
        }
        commands.push(command(line).map_err(|fault| (fault, number))?);
    }
    Ok(commands)
}

/// The one normal text of a list of commands.
pub fn normal(commands: &[Command]) -> String {
    let line = |command: &Command| {
        let operands = command.operands().into_iter().map(|operand| format!(" {operand}"));
        command.name().to_owned() + &operands.collect::<String>() + "\n"
    };
    commands.iter().map(line).collect()
}

/// Writes bytes to the buffer's start: how many, or refusal 8 at 4 where they do not fit.
fn write(bytes: &[u8], buffer: &mut [u8]) -> Result<usize, Refusal> {
    let start = buffer.get_mut(..bytes.len()).ok_or(Refusal::new(8, 4))?;
    start.copy_from_slice(bytes);
    Ok(bytes.len())
}

/// Reads a text and writes its sheet.
pub fn assemble(text: &[u8], buffer: &mut [u8]) -> Result<usize, Refusal> {
    let commands = read(text).map_err(|(fault, line)| Refusal::new(fault.number(), line))?;
    write(&encode(&commands), buffer)
}

/// Lists a sheet as text.
pub fn list(sheet: &[u8], buffer: &mut [u8]) -> Result<usize, Refusal> {
    write(normal(&decode(sheet)?).as_bytes(), buffer)
}
