//! What was reached of calls that bring something back: the stops at CallN and at the two returns, and refusal 14.

use crate::backend::Answer;
use crate::generate::Start;
use model::engine::Lent;
use model::rules::{Question, Table, STANDARD};
use model::sheet::{decode, Command, ARGUMENTS, RESULTS};
use model::Label;

/// What may be met on either engine. "Before" is where the other would apply too, if it were asked first.
const EITHER: [&str; 27] = [
    "stop 3, CallN, target",
    "stop 3, CallN, argument",
    "stop 3, CallN, frame",
    "stop 3, RetV, nothing",
    "stop 3, RetV, frame",
    "stop 3 before 4, RetV",
    "stop 3 before 11, RetV",
    "stop 4, RetV, lone value",
    "stop 4, RetV, value under",
    "stop 4 before 11, RetV",
    "stop 4 before 11, Ret",
    "stop 11, RetV",
    "stop 11, Ret",
    "stop 11, hidden place",
    "refusal 14, first alone",
    "refusal 14, second alone",
    "refusal 14, both",
    "refusal 14, 16 arguments",
    "refusal 14, 2 results",
    "refusal 14, 00 10",
    "refusal 14, over 127",
    "refusal 14 before another",
    "refusal 3, CallN",
    "refusal 3, one operand",
    "refusal 3 before 14",
    "refusal 1, CallN over",
    "refusal 12 before a 14",
];

/// The same of the tag engine alone.
const TAGGED: [&str; 5] = [
    "stop 6, CallN",
    "stop 6, RetV",
    "stop 11 before 6, RetV",
    "stop 11 before 6, Ret",
    "refusal 6, no RetV",
];

/// What a RetV may be that is carried out.
const RETURNS: [&str; 4] = [
    "RetV from a hidden place to a visible frame",
    "RetV of a hidden value at a visible place",
    "RetV of a visible value at a hidden place",
    "RetV to a hidden frame",
];

#[derive(Clone, Default)]
pub struct Calls {
    either: [u64; EITHER.len()],
    tagged: [u64; TAGGED.len()],
}

fn add<const N: usize>(counts: &mut [u64; N], met: [bool; N]) {
    for (count, met) in counts.iter_mut().zip(met) {
        *count += u64::from(met);
    }
}

/// The kind words and labels of the stack's entries from the top down.
fn from_top(lent: &Lent, depth: u64) -> Vec<(i64, Label)> {
    let entries = lent.stack.chunks_exact(3).take(depth as usize);
    entries.map(|words| (words[0], words[2] as Label)).rev().collect()
}

impl Calls {
    /// Counts an answer to a start, which left the memory like this.
    pub fn note(&mut self, answer: &Answer, start: &Start, lent: &Lent) {
        let [refusal, place, stop, _, pc, label, depth, ..] = answer.words;
        let mut met = [false; EITHER.len()];
        if refusal != 0 {
            met[14..].copy_from_slice(&refused(&start.sheet, refusal, place as usize));
            return add(&mut self.either, met);
        }
        let commands = decode(&start.sheet).unwrap_or_default();
        let kinds: Vec<i64> = from_top(lent, depth).into_iter().map(|(kind, _)| kind).collect();
        let kind = |below: usize| kinds.get(below).copied();
        let (top, under) = (kind(0), kind(1));
        let framed = |kind: Option<i64>| kind.is_some_and(|kind| kind > 0);
        match (commands.get(pc as usize), stop) {
            (Some(&Command::CallN(arguments, _)), 3) => {
                let target = top == Some(0);
                let frame = (1..=usize::from(arguments)).any(|below| framed(kind(below)));
                met[..3].copy_from_slice(&[!target, target && !frame, target && frame]);
            }
            (Some(Command::RetV), 3) => {
                let frame = framed(top);
                met[3..7].copy_from_slice(&[
                    top.is_none(),
                    frame,
                    frame && !framed(under),
                    frame && under == Some(1),
                ]);
            }
            (Some(Command::RetV), 4) => {
                // A value under it owes nothing, and further down there may be a frame that does not either.
                let next_frame = kinds.iter().copied().find(|&kind| kind > 0);
                met[7..10].copy_from_slice(&[under.is_none(), under.is_some(), next_frame == Some(1)]);
            }
            (Some(Command::Ret), 4) => met[10] = top == Some(0) && under == Some(2),
            (Some(command), 11) => {
                let by_value = *command == Command::RetV;
                met[11..14].copy_from_slice(&[by_value, !by_value, label != 0]);
            }
            _ => {}
        }
        add(&mut self.either, met);
    }

    /// The same for what the tag engine alone can meet.
    pub fn note_tagged(&mut self, answer: &Answer, start: &Start, lent: &Lent, table: Option<&Table>) {
        let [refusal, _, stop, _, pc, label, depth, ..] = answer.words;
        let commands = decode(&start.sheet).unwrap_or_default();
        let command = commands.get(pc as usize).filter(|_| refusal == 0);
        let by_value = command == Some(&Command::RetV);
        let stopped = |number, is| stop == number && is;
        let mut inputs = [None; 3];
        let supplied = if by_value { 2 } else { 1 };
        for (input, (_, label)) in inputs.iter_mut().zip(from_top(lent, depth)).take(supplied) {
            *input = Some(label);
        }
        let denied = command.zip(table).filter(|_| stop == 11).is_some_and(|(command, table)| {
            let question = Question { code: command.code(), place: label as Label, inputs };
            table.answer(&question).is_none()
        });
        let longer = [&start.table, &STANDARD[55..]].concat();
        let met = [
            stopped(6, matches!(command, Some(Command::CallN(..)))),
            stopped(6, by_value),
            denied && by_value,
            denied && !by_value,
            refusal == 6 && Table::parse(&longer).is_ok(),
        ];
        add(&mut self.tagged, met);
    }

    pub fn either(&self) -> impl Iterator<Item = (&'static str, u64)> + '_ {
        EITHER.into_iter().zip(self.either)
    }

    pub fn tagged(&self) -> impl Iterator<Item = (&'static str, u64)> + '_ {
        TAGGED.into_iter().zip(self.tagged)
    }
}

/// What a refusal of a sheet is of [`EITHER`]'s refusals.
fn refused(sheet: &[u8], refusal: u64, place: usize) -> [bool; 13] {
    let code = sheet.get(place).copied().filter(|_| [1, 3, 12, 14].contains(&refusal));
    let is = |number| refusal == number && code == Some(0x0d);
    let operands = sheet.get(place + 1..).unwrap_or_default();
    let over = |index: usize, most: u8| operands.get(index).is_some_and(|&operand| operand > most);
    let (first, second) = (over(0, ARGUMENTS), over(1, RESULTS));
    let rest = |width: usize| decode(operands.get(width..).unwrap_or_default()).err();
    [
        is(14) && first && !second,
        is(14) && !first && second,
        is(14) && first && second,
        is(14) && operands[0] == ARGUMENTS + 1,
        is(14) && operands[1] == RESULTS + 1,
        is(14) && operands[..2] == [0, 0x10],
        is(14) && (over(0, 127) || over(1, 127)),
        is(14) && rest(2).is_some(),
        is(3),
        is(3) && operands.len() == 1,
        is(3) && first,
        is(1) && (first || second),
        refusal == 12 && rest(1).is_some_and(|refusal| refusal.number == 14),
    ]
}

/// Calls and returns that were carried out, on the plain engine.
#[derive(Clone, Default)]
pub struct Carried {
    /// CallNs by their arguments and the results due.
    pub calls: [[u64; 2]; ARGUMENTS as usize + 1],
    returns: [u64; RETURNS.len()],
}

impl Carried {
    pub fn call(&mut self, command: Command) {
        if let Command::CallN(arguments, results) = command {
            self.calls[usize::from(arguments)][usize::from(results)] += 1;
        }
    }

    /// A RetV that is asked of, which the standard rules allow.
    pub fn judged(&mut self, question: &Question) {
        let [Some(value), Some(frame), None] = question.inputs else { return };
        if question.code == 0x0e {
            let place = question.place;
            let met =
                [place != 0 && frame == 0, place == 0 && value != 0, place != 0 && value == 0, frame != 0];
            add(&mut self.returns, met);
        }
    }

    pub fn returns(&self) -> impl Iterator<Item = (&'static str, u64)> + '_ {
        RETURNS.into_iter().zip(self.returns)
    }
}
