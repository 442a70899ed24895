//! The faults in calls that bring something back: in what they need, what they leave on the stack, their rules, and what
//! is refused of them.

use super::super::faults::Fault;
use super::super::sample;
use model::engine::Lent;
use model::machine::{Entry, Machine, Stack, Stop};
use model::rules::{LabelTree, Question, Rule, Table, YesNoTree, STANDARD};
use model::sample::Sample;
use model::sheet::{decode, encode, Command, ARGUMENTS, RESULTS};
use model::{Atom, Refusal};

/// An entry's atom, whatever it is.
fn atom(entry: Entry) -> Atom {
    match entry {
        Entry::Value(atom) | Entry::Frame(atom, _) => atom,
    }
}

fn is_value(entry: Option<Entry>) -> bool {
    matches!(entry, Some(Entry::Value(_)))
}

/// Whether it is a frame with so many results due.
fn owes(entry: Option<Entry>, results: u8) -> bool {
    matches!(entry, Some(Entry::Frame(_, due)) if due == results)
}

/// The first entries from the top down, as inputs.
fn top(stack: &Stack, count: usize) -> Vec<Atom> {
    (0..count).filter_map(|below| stack.entry(below)).map(atom).collect()
}

/// What the rule of a return would be asked.
pub fn question(machine: &Machine, command: Command) -> Question {
    let count = if command == Command::RetV { 2 } else { 1 };
    let mut inputs = [None; 3];
    for (input, atom) in inputs.iter_mut().zip(top(&machine.stack, count)) {
        *input = Some(atom.label);
    }
    Question { code: command.code(), place: machine.place_label, inputs }
}

/// How far under the top the first frame is that owes a result.
fn next_owing(stack: &Stack) -> Option<usize> {
    (0..stack.depth).find(|&below| owes(stack.entry(below), 1))
}

impl Fault {
    /// The atoms that a command works on, with the fault in what calls and returns need.
    pub fn inputs(self, machine: &Machine, command: Command) -> Result<Vec<Atom>, Stop> {
        let right = machine.inputs(command);
        let Err(stop) = right else { return right };
        let stack = &machine.stack;
        let under = stack.entry(1);
        match (self, command, stop) {
            (Fault::RetOnResult, Command::Ret, Stop::ResultsDiffer) => Ok(top(stack, 1)),
            (Fault::RetVOnNone, Command::RetV, Stop::ResultsDiffer) => Ok(top(stack, 2)),
            (Fault::RetVReachesDown, Command::RetV, Stop::FrameMissing) => {
                let below = next_owing(stack).ok_or(stop)?;
                let frame = stack.entry(below).map(atom);
                Ok(top(stack, 1).into_iter().chain(frame).collect())
            }
            (Fault::ResultsBeforeFrame, Command::RetV, Stop::FrameMissing) if under.is_some() => {
                Err(Stop::ResultsDiffer)
            }
            (Fault::FrameBeforeValue, Command::RetV, Stop::ValueMissing)
                if is_value(under) || under.is_none() =>
            {
                Err(Stop::FrameMissing)
            }
            (Fault::ResultsBeforeValue, Command::RetV, Stop::ValueMissing) if owes(under, 0) => {
                Err(Stop::ResultsDiffer)
            }
            (_, Command::CallN(arguments, _), Stop::ValueMissing) => {
                let arguments = usize::from(arguments);
                let values = (1..=arguments).filter(|&below| is_value(stack.entry(below))).count();
                let target = is_value(stack.entry(0));
                let accepted = match self {
                    Fault::FrameAsArgument => target && stack.depth > arguments,
                    Fault::ArgumentMissing => target && values + 1 == arguments && stack.depth == arguments,
                    Fault::TargetIsFrame => stack.depth > 0 && !target && values == arguments,
                    _ => false,
                };
                if accepted {
                    Ok(top(stack, 1))
                } else {
                    Err(stop)
                }
            }
            _ => Err(stop),
        }
    }

    /// Carries out a call with the fault.
    pub fn call(self, stack: &mut Stack, command: Command, arguments: usize, frame: Entry) {
        let (place, results) = match frame {
            Entry::Frame(place, results) => (place, results),
            Entry::Value(_) => panic!("a call puts a frame"),
        };
        if command == Command::Call {
            let results = if self == Fault::CallOwes { 1 } else { results };
            return stack.call(arguments, Entry::Frame(place, results));
        }
        match self {
            Fault::ArgumentsReversed => {
                stack.pop();
                let above: Vec<Entry> = (0..arguments).filter_map(|_| stack.pop()).collect();
                stack.push(frame);
                for argument in above {
                    stack.push(argument);
                }
            }
            Fault::ArgumentTooFew => stack.call(arguments.saturating_sub(1), frame),
            Fault::ArgumentTooMany => stack.call((arguments + 1).min(stack.depth - 1), frame),
            Fault::FrameOnTop => stack.call(0, frame),
            Fault::FrameBack => {
                stack.call(arguments, Entry::Frame(Atom { number: place.number - 1, ..place }, results));
            }
            _ => stack.call(arguments, frame),
        }
    }

    /// Carries out a RetV with the fault.
    pub fn bring_back(self, stack: &mut Stack, result: Atom) {
        let top = stack.depth - 1;
        let frame = stack.entries[top - 1];
        if self == Fault::RetVReachesDown {
            let below = next_owing(stack).unwrap_or(1);
            stack.depth -= below - 1;
        }
        stack.bring_back(result);
        match self {
            Fault::RetVDropsValue => {
                stack.pop();
            }
            Fault::RetVKeepsFrame => {
                stack.pop();
                stack.push(frame);
                stack.push(Entry::Value(result));
            }
            Fault::TopLeft => stack.entries[top] = Entry::Value(result),
            Fault::TopCleared => stack.entries[top] = Entry::Value(Atom { number: 0, label: 0 }),
            Fault::ResultAbove => {
                stack.entries[top - 1] = frame;
                stack.entries[top] = Entry::Value(result);
            }
            _ => {}
        }
    }

    /// Puts the fault into the words of calls and frames that a run left.
    pub fn call_words(self, sheet: &[u8], lent: &mut Lent) {
        for entry in lent.stack.chunks_exact_mut(3) {
            match (self, entry[0]) {
                (Fault::KindOneForBoth, 2) => entry[0] = 1,
                (Fault::KindTwoForAll, 1) => entry[0] = 2,
                _ => {}
            }
        }
        if self == Fault::OperandsSwapped {
            let commands = decode(sheet).unwrap_or_default();
            for (words, command) in lent.program.chunks_exact_mut(2).zip(commands) {
                if let Command::CallN(arguments, results) = command {
                    words[1] = 16 * i64::from(results) + i64::from(arguments);
                }
            }
        }
    }

    /// The table that is used in place of this one.
    pub fn table(self, table: &[u8]) -> Vec<u8> {
        let longer = [table, &STANDARD[55..]].concat();
        if self == Fault::OldTableAccepted && Table::parse(&longer).is_ok() {
            return longer;
        }
        table.to_vec()
    }

    /// The handler of a table with the fault in RetV's rule, or in CallN's.
    pub fn handler(self, table: &[u8]) -> Sample {
        let Ok(mut table) = Table::parse(table) else { return sample(table) };
        let [value, frame] = [LabelTree::Input(1), LabelTree::Input(2)];
        if let Some(rule) = table.rules.last_mut() {
            match self {
                Fault::RetVWithoutPlace => rule.result = value,
                Fault::RetVKeepsPlace => rule.place = LabelTree::Place,
                Fault::RetVPlaceOfBoth => rule.place = LabelTree::Join(value.into(), frame.into()),
                Fault::RetVUnderRet => {
                    *rule = Rule { allowed: YesNoTree::True, place: value, result: LabelTree::Empty };
                }
                _ => {}
            }
        }
        if self == Fault::FrameRaised {
            table.rules[9].result = table.rules[9].place.clone();
        }
        Sample::of(&table)
    }

    /// The operands that pass in place of these, which should be refused.
    pub fn passes(self, [arguments, results]: [u8; 2]) -> Option<[u8; 2]> {
        let (first, second) = (arguments <= ARGUMENTS, results <= RESULTS);
        let word = 16 * u16::from(arguments) + u16::from(results);
        let unpacked = [(word / 16) as u8, (word % 16) as u8];
        match self {
            Fault::SixteenArguments if arguments == ARGUMENTS + 1 && second => Some([ARGUMENTS, results]),
            Fault::TwoResults if results == RESULTS + 1 && first => Some([arguments, RESULTS]),
            Fault::OperandsPacked => {
                Some(unpacked).filter(|&[first, second]| first <= ARGUMENTS && second <= RESULTS)
            }
            Fault::OperandsSigned => {
                let signed = |operand: u8| if operand > 127 { 0 } else { operand };
                Some([signed(arguments), signed(results)])
                    .filter(|&[first, second]| first <= ARGUMENTS && second <= RESULTS)
            }
            Fault::FirstUnchecked if second => Some([ARGUMENTS, results]),
            Fault::SecondUnchecked if first => Some([arguments, RESULTS]),
            _ => None,
        }
    }

    /// Refusal 14 with the fault.
    pub fn refusal_of_call(self, at: usize) -> Refusal {
        match self {
            Fault::CallOffset => Refusal::new(14, at + 1),
            Fault::CallAsPage => Refusal::new(12, at),
            _ => Refusal::new(14, at),
        }
    }

    /// A refusal of a sheet that should pass, or be refused by another number.
    pub fn refuses(self, sheet: &[u8]) -> Option<Refusal> {
        let refusal = decode(sheet).err();
        let checked = refusal.map_or(sheet.len(), |refusal| refusal.place as usize);
        match self {
            Fault::FifteenRefused => {
                let commands = decode(&sheet[..checked]).unwrap_or_default();
                let at = commands.iter().position(|command| matches!(command, Command::CallN(15, _)))?;
                Some(Refusal::new(14, encode(&commands[..at]).len()))
            }
            Fault::CallBeforeCut if refusal?.number == 3 => match sheet[checked..] {
                [0x0d, arguments] if arguments > ARGUMENTS => Some(Refusal::new(14, checked)),
                _ => None,
            },
            _ => None,
        }
    }
}
