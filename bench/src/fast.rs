//! The fastest interpreter of the plain machine that was to hand: commands decoded to an enum, a Push fused with what
//! follows it, packed entries, no index tested twice. It allocates, and lays its memory out only at the end.

use crate::safe::{check_plain, load_sheet, Clearances, END, FRAME, NUMBER, VALUE};
use model::engine::{Lent, Report};
use model::machine::{Stop, STACK};
use model::{Label, Refusal};

#[derive(Clone, Copy)]
enum Op {
    Add,
    Sub,
    Pop,
    /// To this page, which is cleared for these owners.
    Output(u8, u32),
    Push(i64),
    Load,
    Store,
    Jump,
    Bnz(i64),
    Call,
    Ret,
    /// With so many arguments, and a frame of this kind.
    CallN(u8, Kind),
    RetV,
    /// A Push and the command after it. The cell is known to be there, the branch to be taken or not.
    PushAdd(i64),
    PushSub(i64),
    PushLoad(u32),
    PushStore(u32),
    PushJump(i64),
    PushBnz(i64, i32),
}

#[derive(Clone, Copy, PartialEq)]
enum Kind {
    Value,
    Frame,
    /// A frame with a result due.
    FrameDue,
}

#[derive(Clone, Copy)]
struct Entry {
    number: i64,
    label: u32,
    kind: Kind,
}

#[derive(Clone, Copy)]
struct Cell {
    number: i64,
    label: u32,
}

fn single(code: i64, operand: i64, clearances: &Clearances) -> Op {
    match code {
        1 => Op::Add,
        2 => Op::Sub,
        3 => Op::Pop,
        5 => Op::Push(operand),
        6 => Op::Load,
        7 => Op::Store,
        8 => Op::Jump,
        9 => Op::Bnz(operand),
        10 => Op::Call,
        11 => Op::Ret,
        13 => Op::CallN(operand as u8 / 16, if operand % 16 == 0 { Kind::Frame } else { Kind::FrameDue }),
        14 => Op::RetV,
        // Output, whose operand word is 0, and OutputTo
        _ => Op::Output(operand as u8, clearances[operand as usize] as u32),
    }
}

/// The commands of a program, each Push fused with its successor where that cannot stop by its operand alone.
fn decode(program: &[i64], cells: usize, clearances: &Clearances) -> Vec<Op> {
    let words: Vec<(i64, i64)> = program.chunks_exact(2).map(|pair| (pair[0], pair[1])).collect();
    let op = |index: usize| {
        let (code, operand) = words[index];
        let next = words.get(index + 1).copied();
        let in_cells = (0..cells as i64).contains(&operand);
        match (code, next) {
            (5, Some((1, _))) => Op::PushAdd(operand),
            (5, Some((2, _))) => Op::PushSub(operand),
            (5, Some((6, _))) if in_cells => Op::PushLoad(operand as u32),
            (5, Some((7, _))) if in_cells => Op::PushStore(operand as u32),
            (5, Some((8, _))) => Op::PushJump(operand),
            (5, Some((9, distance))) => {
                Op::PushBnz(operand, if operand != 0 { 1 + distance as i32 } else { 2 })
            }
            _ => single(code, operand, clearances),
        }
    };
    (0..words.len()).map(op).collect()
}

/// The lone Push of a fused one.
fn alone(op: Op) -> Op {
    match op {
        Op::PushAdd(number) | Op::PushSub(number) | Op::PushJump(number) | Op::PushBnz(number, _) => {
            Op::Push(number)
        }
        Op::PushLoad(cell) | Op::PushStore(cell) => Op::Push(cell.into()),
        other => other,
    }
}

pub fn plain(sheet: &[u8], lent: &mut Lent, clearances: &[i64], fuel: u64) -> Result<Report, Refusal> {
    let (count, clearances) = check_plain(sheet, lent, clearances, fuel)?;
    load_sheet(sheet, &mut lent.program);
    let ops = decode(&lent.program[..2 * count], lent.values.len(), clearances);
    Ok(run(&ops, lent, clearances[0] as u32, fuel))
}

/// Drops a call's target and puts a frame under its arguments: the target, if it and they are values. Not inlined: within
/// the loop it takes a third of the speed of the cell walk and of hidden branches.
#[inline(never)]
fn enter(stack: &mut [Entry], arguments: u8, frame: Entry) -> Option<Entry> {
    let place = stack.len().checked_sub(1 + usize::from(arguments))?;
    let entries = &mut stack[place..];
    if entries.iter().any(|entry| entry.kind != Kind::Value) {
        return None;
    }
    let mut last = frame;
    for entry in entries {
        std::mem::swap(entry, &mut last);
    }
    Some(last)
}

/// The end line needs page 0's clearance.
#[inline(never)]
fn run(ops: &[Op], lent: &mut Lent, end_clearance: u32, fuel: u64) -> Report {
    let mut cells: Vec<Cell> = (lent.values.iter().zip(&lent.labels))
        .map(|(&number, &label)| Cell { number, label: label as u32 })
        .collect();
    let cells = &mut cells[..];
    let mut stack = [Entry { number: 0, label: 0, kind: Kind::Value }; STACK];
    let room = lent.room();
    let (numbers, line_labels, kinds, pages) = (
        &mut lent.numbers[..room],
        &mut lent.line_labels[..room],
        &mut lent.kinds[..room],
        &mut lent.pages[..room],
    );
    let count = ops.len() as u64;
    let (mut pc, mut label, mut depth, mut lines, mut left) = (0i64, 0u32, 0usize, 0usize, fuel);
    // Entries below this were written.
    let mut high = 0;

    // SAFETY, for this macro: each use stands after a test that depth is above `below`, and depth is at most 256.
    macro_rules! entry {
        ($below:expr) => {
            *unsafe { stack.get_unchecked_mut(depth - 1 - $below) }
        };
    }
    macro_rules! value {
        ($below:expr) => {
            depth > $below && entry!($below).kind == Kind::Value
        };
    }
    // Writes an entry above the top: depth was tested to be below 256.
    macro_rules! above {
        ($number:expr, $label:expr) => {
            // SAFETY: depth is below 256.
            *unsafe { stack.get_unchecked_mut(depth) } =
                Entry { number: $number, label: $label, kind: Kind::Value };
            high = high.max(depth + 1);
        };
    }
    // A fused command that stops leaves its Push carried out: its entry was written, or is now.
    macro_rules! pushed {
        ($stop:expr) => {{
            depth += 1;
            pc += 1;
            left -= 1;
            break $stop;
        }};
        ($number:expr, $stop:expr) => {{
            above!($number, 0);
            pushed!($stop)
        }};
    }

    let stop = loop {
        if pc as u64 >= count {
            if pc as u64 == count {
                if label & !end_clearance != 0 {
                    break Stop::NotCleared;
                }
                if lines >= room {
                    break Stop::OutputFull;
                }
                numbers[lines] = 0;
                line_labels[lines] = label.into();
                kinds[lines] = END;
                pages[lines] = 0;
                lines += 1;
                break Stop::End;
            }
            break if left == 0 { Stop::AllowanceSpent } else { Stop::PlaceOutside };
        }
        if left == 0 {
            break Stop::AllowanceSpent;
        }
        // SAFETY: pc was tested to be below the number of commands.
        let mut op = *unsafe { ops.get_unchecked(pc as usize) };
        if left == 1 || depth == STACK {
            op = alone(op);
        }
        match op {
            Op::PushAdd(number) => {
                if !value!(0) {
                    pushed!(number, Stop::ValueMissing);
                }
                above!(number, 0);
                let (sum, outside) = number.overflowing_add(entry!(0).number);
                if outside {
                    pushed!(Stop::Overflow);
                }
                entry!(0).number = sum;
                pc += 2;
                left -= 1;
            }
            Op::PushSub(number) => {
                if !value!(0) {
                    pushed!(number, Stop::ValueMissing);
                }
                above!(number, 0);
                let (difference, outside) = number.overflowing_sub(entry!(0).number);
                if outside {
                    pushed!(Stop::Overflow);
                }
                entry!(0).number = difference;
                pc += 2;
                left -= 1;
            }
            Op::PushLoad(address) => {
                // SAFETY: decoding tested the address.
                let cell = *unsafe { cells.get_unchecked(address as usize) };
                above!(cell.number, cell.label);
                depth += 1;
                pc += 2;
                left -= 1;
            }
            Op::PushStore(address) => {
                // SAFETY: decoding tested the address.
                let cell = unsafe { cells.get_unchecked_mut(address as usize) };
                if !value!(0) {
                    pushed!(address.into(), Stop::ValueMissing);
                }
                if label & !cell.label != 0 {
                    pushed!(address.into(), Stop::NotAllowed);
                }
                above!(address.into(), 0);
                *cell = Cell { number: entry!(0).number, label: entry!(0).label | label };
                depth -= 1;
                pc += 2;
                left -= 1;
            }
            Op::PushJump(target) => {
                above!(target, 0);
                pc = target;
                left -= 1;
            }
            Op::PushBnz(number, distance) => {
                above!(number, 0);
                pc += i64::from(distance);
                left -= 1;
            }
            Op::Push(number) => {
                if depth == STACK {
                    break Stop::StackFull;
                }
                above!(number, 0);
                depth += 1;
                pc += 1;
            }
            Op::Add | Op::Sub => {
                if !(value!(0) && value!(1)) {
                    break Stop::ValueMissing;
                }
                let (top, under) = (entry!(0), entry!(1));
                let number = match op {
                    Op::Add => top.number.checked_add(under.number),
                    _ => top.number.checked_sub(under.number),
                };
                let Some(number) = number else { break Stop::Overflow };
                entry!(1) = Entry { number, label: top.label | under.label, kind: Kind::Value };
                depth -= 1;
                pc += 1;
            }
            Op::Pop => {
                if !value!(0) {
                    break Stop::ValueMissing;
                }
                depth -= 1;
                pc += 1;
            }
            Op::Output(page, clearance) => {
                if !value!(0) {
                    break Stop::ValueMissing;
                }
                let line_label = entry!(0).label | label;
                if line_label & !clearance != 0 {
                    break Stop::NotCleared;
                }
                if lines >= room {
                    break Stop::OutputFull;
                }
                numbers[lines] = entry!(0).number;
                line_labels[lines] = line_label.into();
                kinds[lines] = NUMBER;
                pages[lines] = page.into();
                lines += 1;
                depth -= 1;
                pc += 1;
            }
            Op::Load => {
                if !value!(0) {
                    break Stop::ValueMissing;
                }
                let top = entry!(0);
                let Some(cell) = cells.get(top.number as usize) else { break Stop::AddressOutside };
                entry!(0) = Entry { number: cell.number, label: top.label | cell.label, kind: Kind::Value };
                pc += 1;
            }
            Op::Store => {
                if !(value!(0) && value!(1)) {
                    break Stop::ValueMissing;
                }
                let (top, under) = (entry!(0), entry!(1));
                let Some(cell) = cells.get_mut(top.number as usize) else { break Stop::AddressOutside };
                let from = top.label | label;
                if from & !cell.label != 0 {
                    break Stop::NotAllowed;
                }
                *cell = Cell { number: under.number, label: from | under.label };
                depth -= 2;
                pc += 1;
            }
            Op::Jump => {
                if !value!(0) {
                    break Stop::ValueMissing;
                }
                pc = entry!(0).number;
                label |= entry!(0).label;
                depth -= 1;
            }
            Op::Bnz(distance) => {
                if !value!(0) {
                    break Stop::ValueMissing;
                }
                pc += if entry!(0).number != 0 { distance } else { 1 };
                label |= entry!(0).label;
                depth -= 1;
            }
            Op::Call => {
                if !(value!(0) && value!(1)) {
                    break Stop::ValueMissing;
                }
                let (target, argument) = (entry!(0), entry!(1));
                entry!(1) = Entry { number: pc + 1, label, kind: Kind::Frame };
                entry!(0) = argument;
                pc = target.number;
                label |= target.label;
            }
            Op::Ret => {
                if depth == 0 || entry!(0).kind != Kind::Frame {
                    break if depth == 0 || value!(0) { Stop::FrameMissing } else { Stop::ResultsDiffer };
                }
                pc = entry!(0).number;
                label = entry!(0).label;
                depth -= 1;
            }
            Op::CallN(arguments, kind) => {
                let frame = Entry { number: pc + 1, label, kind };
                let Some(target) = enter(&mut stack[..depth], arguments, frame) else {
                    break Stop::ValueMissing;
                };
                pc = target.number;
                label |= target.label;
            }
            Op::RetV => {
                if !value!(0) {
                    break Stop::ValueMissing;
                }
                if depth == 1 || entry!(1).kind != Kind::FrameDue {
                    break if depth == 1 || value!(1) { Stop::FrameMissing } else { Stop::ResultsDiffer };
                }
                let (top, frame) = (entry!(0), entry!(1));
                entry!(1) = Entry { number: top.number, label: top.label | label, kind: Kind::Value };
                pc = frame.number;
                label = frame.label;
                depth -= 1;
            }
        }
        left -= 1;
    };
    for (words, entry) in lent.stack.chunks_exact_mut(3).zip(&stack[..high]) {
        let kind = match entry.kind {
            Kind::Value => VALUE,
            Kind::Frame => FRAME,
            Kind::FrameDue => FRAME + 1,
        };
        words.copy_from_slice(&[kind, entry.number, entry.label.into()]);
    }
    for (index, cell) in cells.iter().enumerate() {
        lent.values[index] = cell.number;
        lent.labels[index] = cell.label.into();
    }
    Report {
        stop,
        steps: fuel - left,
        place: pc,
        place_label: label as Label,
        depth: depth as u64,
        lines: lines as u64,
        faults: 0,
        kernel_steps: 0,
    }
}
