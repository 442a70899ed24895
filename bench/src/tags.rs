//! A tag engine in safe Rust: the rule memory before every command, and the handler's words on the engines' layout
//! run by a small kernel at each fault.

use crate::safe::{
    check_cells, check_clearances, check_fuel, check_sheet, check_spaces, enter, flows, load_sheet,
    no_return, Clearances, END, FRAME, NUMBER, VALUE,
};
use model::engine::{Lent, Report};
use model::machine::{Stop, STACK};
use model::rules::Table;
use model::{Label, Refusal};

/// Runs with a handler whose `count` commands are already in handler space.
pub fn tagged(
    sheet: &[u8],
    table: &[u8],
    count: usize,
    lent: &mut Lent,
    clearances: &[i64],
    fuel: u64,
) -> Result<Report, Refusal> {
    let commands = check_sheet(sheet)?;
    check_cells(&lent.values, &lent.labels)?;
    let clearances = check_clearances(clearances)?;
    if !Table::parse(table)?.accepts(&lent.rule_memory) {
        return Err(Refusal::new(7, 0));
    }
    check_spaces(commands, lent)?;
    if lent.handler.len() < 2 * count {
        return Err(Refusal::new(8, 3));
    }
    check_fuel(fuel)?;
    load_sheet(sheet, &mut lent.program);
    Ok(run(commands, lent, clearances, fuel))
}

/// The kernel: whether it returned, and its steps. Its sums wrap.
#[inline(never)]
fn handle(handler: &[i64], memory: &mut [i64; 7]) -> (bool, u64) {
    let mut stack = [0i64; 65];
    let (mut pc, mut depth, mut steps) = (0usize, 0usize, 0u64);
    loop {
        let (code, operand) = (handler[2 * pc], handler[2 * pc + 1]);
        steps += 1;
        match code {
            1 => {
                depth -= 1;
                stack[depth - 1] = stack[depth].wrapping_add(stack[depth - 1]);
            }
            2 => {
                depth -= 1;
                stack[depth - 1] = stack[depth].wrapping_sub(stack[depth - 1]);
            }
            5 => {
                stack[depth] = operand;
                depth += 1;
            }
            6 => stack[depth - 1] = memory[stack[depth - 1] as usize],
            7 => {
                depth -= 2;
                memory[stack[depth + 1] as usize] = stack[depth];
            }
            8 => {
                depth -= 1;
                if stack[depth] == -1 {
                    return (false, steps);
                }
                pc = stack[depth] as usize;
                continue;
            }
            9 => {
                depth -= 1;
                if stack[depth] != 0 {
                    pc = (pc as i64 + operand) as usize;
                    continue;
                }
            }
            11 => return (true, steps),
            0x11 => {
                depth -= 1;
                stack[depth - 1] |= stack[depth];
            }
            0x12 => {
                stack[depth] = stack[depth - 1];
                depth += 1;
            }
            _ => stack.swap(depth - 1, depth - 2),
        }
        pc += 1;
    }
}

/// What a command needs: a stop, or the labels of its inputs, −1 for missing ones.
fn needs([code, operand]: [i64; 2], stack: &[i64], depth: usize, labels: &[i64]) -> Result<[i64; 3], Stop> {
    let kind = |below: usize| if depth > below { stack[3 * (depth - 1 - below)] } else { -1 };
    let entry_label = |below: usize| stack[3 * (depth - 1 - below) + 2];
    if code == 5 {
        return Ok([-1; 3]);
    }
    if code == 11 {
        return if kind(0) == FRAME { Ok([entry_label(0), -1, -1]) } else { Err(no_return(stack, depth, 0)) };
    }
    let two = matches!(code, 1 | 2 | 7 | 10);
    if kind(0) != VALUE || two && kind(1) != VALUE {
        return Err(Stop::ValueMissing);
    }
    let cell = |address: i64| {
        if address < 0 || address >= labels.len() as i64 {
            return Err(Stop::AddressOutside);
        }
        Ok(labels[address as usize])
    };
    let address = stack[3 * (depth - 1) + 1];
    Ok(match code {
        1 | 2 => [entry_label(0), entry_label(1), -1],
        6 => [entry_label(0), cell(address)?, -1],
        7 => [entry_label(0), entry_label(1), cell(address)?],
        13 if (1..=operand as usize / 16).any(|below| kind(below) != VALUE) => {
            return Err(Stop::ValueMissing);
        }
        14 if kind(1) != FRAME + 1 => return Err(no_return(stack, depth, 1)),
        14 => [entry_label(0), entry_label(1), -1],
        _ => [entry_label(0), -1, -1],
    })
}

#[inline(never)]
fn run(count: usize, lent: &mut Lent, clearances: &Clearances, fuel: u64) -> Report {
    let room = lent.room();
    let Lent { values, labels, rule_memory, program, stack, handler, numbers, line_labels, kinds, pages } =
        lent;
    let (mut pc, mut label, mut depth, mut lines, mut steps) = (0i64, 0i64, 0usize, 0usize, 0u64);
    let (mut faults, mut kernel_steps) = (0, 0);
    let mut memory: [i64; 7] = rule_memory[..].try_into().expect("the rule memory was accepted");
    let stop = loop {
        if pc == count as i64 {
            if !flows(label, clearances[0]) {
                break Stop::NotCleared;
            }
            if lines >= room {
                break Stop::OutputFull;
            }
            numbers[lines] = 0;
            line_labels[lines] = label;
            kinds[lines] = END;
            pages[lines] = 0;
            lines += 1;
            break Stop::End;
        }
        if steps == fuel {
            break Stop::AllowanceSpent;
        }
        if pc < 0 || pc > count as i64 {
            break Stop::PlaceOutside;
        }
        let code = program[2 * pc as usize];
        let operand = program[2 * pc as usize + 1];
        let inputs = match needs([code, operand], stack, depth, labels) {
            Ok(inputs) => inputs,
            Err(stop) => break stop,
        };
        let row = [code, label, inputs[0], inputs[1], inputs[2]];
        // word by word: as slices they would be compared by a call
        if memory.iter().zip(row).any(|(&held, asked)| held != asked) {
            memory[..5].copy_from_slice(&row);
            memory[5..].fill(-1);
            faults += 1;
            let (returned, taken) = handle(handler, &mut memory);
            kernel_steps += taken;
            if !returned {
                break Stop::NotAllowed;
            }
        }
        let result = memory[6];
        let top = 3 * depth.saturating_sub(1);
        let under = 3 * depth.saturating_sub(2);
        let mut next = pc + 1;
        match code {
            1 | 2 => {
                let (left, right) = (stack[top + 1], stack[under + 1]);
                let (sum, outside) =
                    if code == 1 { left.overflowing_add(right) } else { left.overflowing_sub(right) };
                if outside {
                    break Stop::Overflow;
                }
                stack[under + 1] = sum;
                stack[under + 2] = result;
                depth -= 1;
            }
            3 => depth -= 1,
            // an Output's operand word is 0
            4 | 12 => {
                if !flows(result, clearances[operand as usize]) {
                    break Stop::NotCleared;
                }
                if lines >= room {
                    break Stop::OutputFull;
                }
                numbers[lines] = stack[top + 1];
                line_labels[lines] = result;
                kinds[lines] = NUMBER;
                pages[lines] = operand;
                lines += 1;
                depth -= 1;
            }
            5 => {
                if depth == STACK {
                    break Stop::StackFull;
                }
                stack[3 * depth..3 * depth + 3].copy_from_slice(&[VALUE, operand, result]);
                depth += 1;
            }
            6 => {
                stack[top + 1] = values[stack[top + 1] as usize];
                stack[top + 2] = result;
            }
            7 => {
                let address = stack[top + 1] as usize;
                values[address] = stack[under + 1];
                labels[address] = result;
                depth -= 2;
            }
            8 => {
                next = stack[top + 1];
                depth -= 1;
            }
            9 => {
                if stack[top + 1] != 0 {
                    next = pc + operand;
                }
                depth -= 1;
            }
            10 => {
                next = stack[top + 1];
                let argument = [VALUE, stack[under + 1], stack[under + 2]];
                stack[under..under + 3].copy_from_slice(&[FRAME, pc + 1, result]);
                stack[top..top + 3].copy_from_slice(&argument);
            }
            13 => {
                let frame = [FRAME + operand % 16, pc + 1, result];
                [next, _] = enter(stack, depth, operand as usize / 16, frame);
            }
            14 => {
                next = stack[under + 1];
                let brought = [VALUE, stack[top + 1], result];
                stack[under..under + 3].copy_from_slice(&brought);
                depth -= 1;
            }
            _ => {
                next = stack[top + 1];
                depth -= 1;
            }
        }
        pc = next;
        label = memory[5];
        steps += 1;
    };
    rule_memory.copy_from_slice(&memory);
    Report {
        stop,
        steps,
        place: pc,
        place_label: label as Label,
        depth: depth as u64,
        lines: lines as u64,
        faults,
        kernel_steps,
    }
}
