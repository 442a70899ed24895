//! A straightforward interpreter in safe Rust on the engines' own layout: two words a command, three a stack entry,
//! cells as two runs, lines as four. Also all checks before the first step.

use model::engine::{Lent, Report, ALLOWANCE, CELLS};
use model::machine::{Stop, STACK};
use model::sheet::{ARGUMENTS, COMMANDS, PAGES, RESULTS};
use model::{Label, Refusal};

/// Kinds of stack entries; a frame's is this plus the results due.
pub const VALUE: i64 = 0;
pub const FRAME: i64 = 1;

/// Kinds of lines.
pub const NUMBER: i64 = 0;
pub const END: i64 = 1;

/// The pages' clearances, a word each.
pub type Clearances = [i64; PAGES as usize];

/// Checks a sheet: how many commands it has.
pub fn check_sheet(sheet: &[u8]) -> Result<usize, Refusal> {
    let (mut offset, mut count) = (0, 0);
    while offset < sheet.len() {
        if count == COMMANDS {
            return Err(Refusal::new(1, offset));
        }
        let width = match sheet[offset] {
            5 => 8,
            9 => 2,
            12 => match sheet.get(offset + 1) {
                Some(&page) if page >= PAGES => return Err(Refusal::new(12, offset)),
                _ => 1,
            },
            13 => match sheet[offset + 1..] {
                [arguments, results, ..] if arguments > ARGUMENTS || results > RESULTS => {
                    return Err(Refusal::new(14, offset));
                }
                _ => 2,
            },
            1..=11 | 14 => 0,
            _ => return Err(Refusal::new(2, offset)),
        };
        if sheet.len() - offset - 1 < width {
            return Err(Refusal::new(3, offset));
        }
        offset += 1 + width;
        count += 1;
    }
    Ok(count)
}

pub fn check_cells(values: &[i64], labels: &[i64]) -> Result<(), Refusal> {
    if values.len() != labels.len() {
        return Err(Refusal::new(4, values.len().min(labels.len())));
    }
    if values.len() > CELLS {
        return Err(Refusal::new(4, CELLS));
    }
    match labels.iter().position(|&label| Label::try_from(label).is_err()) {
        Some(cell) => Err(Refusal::new(5, cell)),
        None => Ok(()),
    }
}

pub fn check_clearances(words: &[i64]) -> Result<&Clearances, Refusal> {
    let Ok(clearances) = <&Clearances>::try_from(words) else {
        return Err(Refusal::new(13, PAGES.into()));
    };
    match clearances.iter().position(|&word| Label::try_from(word).is_err()) {
        Some(page) => Err(Refusal::new(13, page)),
        None => Ok(clearances),
    }
}

/// Writes the commands of a sheet that passed its check.
pub fn load_sheet(sheet: &[u8], program: &mut [i64]) {
    let mut offset = 0;
    for command in program.chunks_exact_mut(2) {
        let Some(&code) = sheet.get(offset) else { return };
        let rest = &sheet[offset + 1..];
        let (operand, width) = match code {
            5 => (i64::from_le_bytes(rest[..8].try_into().expect("eight bytes")), 8),
            9 => (i16::from_le_bytes(rest[..2].try_into().expect("two bytes")).into(), 2),
            12 => (rest[0].into(), 1),
            13 => ((16 * rest[0] + rest[1]).into(), 2),
            _ => (0, 0),
        };
        command[0] = code.into();
        command[1] = operand;
        offset += 1 + width;
    }
}

/// All checks of the plain machine: how many commands the sheet has, and the clearances.
pub fn check_plain<'a>(
    sheet: &[u8],
    lent: &Lent,
    clearances: &'a [i64],
    fuel: u64,
) -> Result<(usize, &'a Clearances), Refusal> {
    let count = check_sheet(sheet)?;
    check_cells(&lent.values, &lent.labels)?;
    let clearances = check_clearances(clearances)?;
    check_spaces(count, lent)?;
    check_fuel(fuel)?;
    Ok((count, clearances))
}

pub fn check_spaces(count: usize, lent: &Lent) -> Result<(), Refusal> {
    if lent.program.len() < 2 * count {
        return Err(Refusal::new(8, 1));
    }
    if lent.stack.len() < 3 * STACK {
        return Err(Refusal::new(8, 2));
    }
    Ok(())
}

pub fn check_fuel(fuel: u64) -> Result<(), Refusal> {
    if fuel > ALLOWANCE {
        return Err(Refusal::new(9, 0));
    }
    Ok(())
}

pub fn plain(sheet: &[u8], lent: &mut Lent, clearances: &[i64], fuel: u64) -> Result<Report, Refusal> {
    let (count, clearances) = check_plain(sheet, lent, clearances, fuel)?;
    load_sheet(sheet, &mut lent.program);
    Ok(run(count, lent, clearances, fuel))
}

/// Whether the entry `below` the top is of this kind.
fn is(kind: i64, stack: &[i64], depth: usize, below: usize) -> bool {
    depth > below && stack[3 * (depth - 1 - below)] == kind
}

/// What stops a return to the entry `below` the top, which is no frame of its kind.
pub fn no_return(stack: &[i64], depth: usize, below: usize) -> Stop {
    if depth <= below || is(VALUE, stack, depth, below) {
        Stop::FrameMissing
    } else {
        Stop::ResultsDiffer
    }
}

/// Whether each owner of a label is one of a set, both as words.
pub fn flows(label: i64, set: i64) -> bool {
    label & !set == 0
}

fn put(stack: &mut [i64], index: usize, kind: i64, number: i64, label: i64) {
    stack[3 * index..3 * index + 3].copy_from_slice(&[kind, number, label]);
}

/// Drops a call's target and puts a frame under its arguments: the target. Not inlined: within the loop it takes a sixth of
/// the speed of all workloads.
#[inline(never)]
pub fn enter(stack: &mut [i64], depth: usize, arguments: usize, frame: [i64; 3]) -> [i64; 2] {
    let (top, place) = (3 * (depth - 1), 3 * (depth - 1 - arguments));
    let target = [stack[top + 1], stack[top + 2]];
    stack.copy_within(place..top, place + 3);
    stack[place..place + 3].copy_from_slice(&frame);
    target
}

// Not inlined, here and in the other interpreters: a loop's speed would depend, up to threefold, on the code around it.
#[inline(never)]
fn run(count: usize, lent: &mut Lent, clearances: &Clearances, fuel: u64) -> Report {
    let room = lent.room();
    let Lent { values, labels, program, stack, numbers, line_labels, kinds, pages, .. } = lent;
    let (mut pc, mut label, mut depth, mut lines, mut steps) = (0i64, 0i64, 0usize, 0usize, 0u64);
    let stop = loop {
        if pc == count as i64 {
            if !flows(label, clearances[0]) {
                break Stop::NotCleared;
            }
            if lines >= room {
                break Stop::OutputFull;
            }
            numbers[lines] = 0;
            line_labels[lines] = label;
            kinds[lines] = END;
            pages[lines] = 0;
            lines += 1;
            break Stop::End;
        }
        if steps == fuel {
            break Stop::AllowanceSpent;
        }
        if pc < 0 || pc > count as i64 {
            break Stop::PlaceOutside;
        }
        let code = program[2 * pc as usize];
        let operand = program[2 * pc as usize + 1];
        match code {
            1 | 2 => {
                if !is(VALUE, stack, depth, 0) || !is(VALUE, stack, depth, 1) {
                    break Stop::ValueMissing;
                }
                let (top, under) = (3 * (depth - 1), 3 * (depth - 2));
                let (left, right) = (stack[top + 1], stack[under + 1]);
                let (sum, outside) =
                    if code == 1 { left.overflowing_add(right) } else { left.overflowing_sub(right) };
                if outside {
                    break Stop::Overflow;
                }
                stack[under + 1] = sum;
                stack[under + 2] |= stack[top + 2];
                depth -= 1;
                pc += 1;
            }
            3 => {
                if !is(VALUE, stack, depth, 0) {
                    break Stop::ValueMissing;
                }
                depth -= 1;
                pc += 1;
            }
            5 => {
                if depth == STACK {
                    break Stop::StackFull;
                }
                put(stack, depth, VALUE, operand, 0);
                depth += 1;
                pc += 1;
            }
            6 => {
                if !is(VALUE, stack, depth, 0) {
                    break Stop::ValueMissing;
                }
                let top = 3 * (depth - 1);
                let address = stack[top + 1];
                if address < 0 || address >= values.len() as i64 {
                    break Stop::AddressOutside;
                }
                stack[top + 1] = values[address as usize];
                stack[top + 2] |= labels[address as usize];
                pc += 1;
            }
            7 => {
                if !is(VALUE, stack, depth, 0) || !is(VALUE, stack, depth, 1) {
                    break Stop::ValueMissing;
                }
                let (top, under) = (3 * (depth - 1), 3 * (depth - 2));
                let address = stack[top + 1];
                if address < 0 || address >= values.len() as i64 {
                    break Stop::AddressOutside;
                }
                let from = stack[top + 2] | label;
                if !flows(from, labels[address as usize]) {
                    break Stop::NotAllowed;
                }
                values[address as usize] = stack[under + 1];
                labels[address as usize] = from | stack[under + 2];
                depth -= 2;
                pc += 1;
            }
            8 => {
                if !is(VALUE, stack, depth, 0) {
                    break Stop::ValueMissing;
                }
                let top = 3 * (depth - 1);
                pc = stack[top + 1];
                label |= stack[top + 2];
                depth -= 1;
            }
            9 => {
                if !is(VALUE, stack, depth, 0) {
                    break Stop::ValueMissing;
                }
                let top = 3 * (depth - 1);
                pc += if stack[top + 1] != 0 { operand } else { 1 };
                label |= stack[top + 2];
                depth -= 1;
            }
            10 => {
                if !is(VALUE, stack, depth, 0) || !is(VALUE, stack, depth, 1) {
                    break Stop::ValueMissing;
                }
                let (top, under) = (3 * (depth - 1), 3 * (depth - 2));
                let (target, target_label) = (stack[top + 1], stack[top + 2]);
                let (argument, argument_label) = (stack[under + 1], stack[under + 2]);
                put(stack, depth - 2, FRAME, pc + 1, label);
                put(stack, depth - 1, VALUE, argument, argument_label);
                pc = target;
                label |= target_label;
            }
            11 => {
                if !is(FRAME, stack, depth, 0) {
                    break no_return(stack, depth, 0);
                }
                let top = 3 * (depth - 1);
                pc = stack[top + 1];
                label = stack[top + 2];
                depth -= 1;
            }
            13 => {
                let (arguments, results) = (operand as usize / 16, operand % 16);
                if !(0..=arguments).all(|below| is(VALUE, stack, depth, below)) {
                    break Stop::ValueMissing;
                }
                let [target, target_label] = enter(stack, depth, arguments, [FRAME + results, pc + 1, label]);
                pc = target;
                label |= target_label;
            }
            14 => {
                if !is(VALUE, stack, depth, 0) {
                    break Stop::ValueMissing;
                }
                if !is(FRAME + 1, stack, depth, 1) {
                    break no_return(stack, depth, 1);
                }
                let (top, under) = (3 * (depth - 1), 3 * (depth - 2));
                let (brought, brought_label) = (stack[top + 1], stack[top + 2] | label);
                pc = stack[under + 1];
                label = stack[under + 2];
                put(stack, depth - 2, VALUE, brought, brought_label);
                depth -= 1;
            }
            // Output, whose operand word is 0, and OutputTo. With Ret as the rest the workload of hidden branches takes a
            // third longer.
            _ => {
                if !is(VALUE, stack, depth, 0) {
                    break Stop::ValueMissing;
                }
                let top = 3 * (depth - 1);
                // The union stands here and below: with a name for it the walk through cells takes three times as long.
                if !flows(stack[top + 2] | label, clearances[operand as usize]) {
                    break Stop::NotCleared;
                }
                if lines >= room {
                    break Stop::OutputFull;
                }
                numbers[lines] = stack[top + 1];
                line_labels[lines] = stack[top + 2] | label;
                kinds[lines] = NUMBER;
                pages[lines] = operand;
                lines += 1;
                depth -= 1;
                pc += 1;
            }
        }
        steps += 1;
    };
    Report {
        stop,
        steps,
        place: pc,
        place_label: label as Label,
        depth: depth as u64,
        lines: lines as u64,
        faults: 0,
        kernel_steps: 0,
    }
}
