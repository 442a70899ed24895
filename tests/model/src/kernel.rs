//! The kernel: runs a handler's words on the seven words of the rule memory (document 01, "Tag engine"). Its sums wrap,
//! those of sheets do not (document 02, U2).

use crate::rules::RuleMemory;

/// The most commands of a handler.
pub const COMMANDS: usize = 8192;
/// The most entries of the kernel's stack.
pub const STACK: usize = 64;

#[derive(Clone, Copy, Debug, PartialEq, Eq)]
pub enum Ending {
    /// Ret: back to the sheet.
    Returned,
    /// A jump to −1.
    Denied,
}

/// What a handler did that no handler may do.
#[derive(Clone, Copy, Debug, PartialEq, Eq)]
pub enum Breach {
    UnknownCode(i64),
    PlaceOutside(i64),
    ValueMissing,
    AddressOutside(i64),
    StackFull,
    JumpBack(i64),
    TooManySteps,
}

/// Runs a handler of `count` commands from command 0 on an empty stack: how it ended, and its steps.
pub fn run(words: &[i64], count: usize, memory: &mut RuleMemory) -> Result<(Ending, u64), Breach> {
    let mut stack: Vec<i64> = Vec::new();
    let mut place = 0;
    let mut steps = 0;
    loop {
        if steps == count as u64 {
            return Err(Breach::TooManySteps);
        }
        steps += 1;
        let outside = place < 0 || place >= count as i64;
        if outside {
            return Err(Breach::PlaceOutside(place));
        }
        let index = place as usize;
        let (code, operand) = (words[2 * index], words[2 * index + 1]);
        let mut pop = || stack.pop().ok_or(Breach::ValueMissing);
        let mut next = place + 1;
        match code {
            0x01 | 0x02 | 0x11 => {
                let (top, under) = (pop()?, pop()?);
                stack.push(match code {
                    0x01 => top.wrapping_add(under),
                    0x02 => top.wrapping_sub(under),
                    _ => top | under,
                });
            }
            0x05 => stack.push(operand),
            0x06 => {
                let address = pop()?;
                stack.push(memory[word(address)?]);
            }
            0x07 => {
                let (address, number) = (pop()?, pop()?);
                memory[word(address)?] = number;
            }
            0x12 => {
                let top = pop()?;
                stack.extend([top, top]);
            }
            0x13 => {
                let (top, under) = (pop()?, pop()?);
                stack.extend([top, under]);
            }
            0x08 => {
                next = pop()?;
                if next == -1 {
                    return Ok((Ending::Denied, steps));
                }
            }
            0x09 => {
                if pop()? != 0 {
                    next = place.wrapping_add(operand);
                }
            }
            0x0b => return Ok((Ending::Returned, steps)),
            _ => return Err(Breach::UnknownCode(code)),
        }
        if next <= place {
            return Err(Breach::JumpBack(next));
        }
        if stack.len() > STACK {
            return Err(Breach::StackFull);
        }
        place = next;
    }
}

fn word(address: i64) -> Result<usize, Breach> {
    match usize::try_from(address) {
        Ok(index) if index < 7 => Ok(index),
        _ => Err(Breach::AddressOutside(address)),
    }
}
