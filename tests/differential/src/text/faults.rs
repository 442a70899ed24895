//! The model with one deliberate fault, on which the tests are tried.

use super::tally::outside_at;
use super::{written, Texts, Way, Written};
use crate::backend::Itself;
use model::sheet::{decode, encode, Command, Command::*, ARGUMENTS, COMMANDS, EACH, PAGES, RESULTS};
use model::text::{command, lines, normal, LineFault};
use model::Refusal;

/// Faults that a reader or a lister might have.
#[derive(Clone, Copy, Debug, PartialEq, Eq)]
pub enum Fault {
    /// Lines count from 0.
    LinesFromZero,
    /// The last line needs its newline.
    NewlineNeeded,
    /// Empty lines are passed over.
    EmptyLinePassed,
    /// 4,096 commands are too many, in a text or on a sheet.
    LimitLower,
    /// 4,097 lines are not too many.
    LimitHigher,
    /// Refusal 1 goes before the faults of earlier lines.
    LimitFirst,
    /// At the 4,097th line 10 and 11 go before 1.
    LimitLast,
    /// Letters' case does not count.
    AnyCase,
    /// The start of a name is taken for it.
    NameCut,
    /// What begins with a name is taken for it.
    NameLonger,
    /// The first is taken for the second on a line.
    Taken(&'static str, &'static str),
    /// Spaces at a line's end are passed over.
    TrailingSpace,
    /// What stands after the operands is passed over.
    RestPassed,
    /// A missing operand is 0.
    OperandMissing,
    /// A missing second operand is 0.
    SecondMissing,
    /// A CallN has one operand, its word.
    WordTaken,
    /// The two operands of a CallN are read the other way round.
    SwappedRead,
    /// Operands are tested one by one: 11 of the first goes before 10 of the second.
    RangeAsRead,
    /// The second operand's range is not tested.
    SecondUnchecked,
    /// On one line 11 goes before 10.
    RangeFirst,
    /// Leading zeros are 10.
    ZerosRefused,
    /// Numerals longer than that of any number are 11, leading zeros too.
    ZerosCounted,
    /// Leading zeros mean base 8.
    Octal,
    /// A minus before 0 is 10.
    MinusZeroRefused,
    /// This command, a limit of its range, is taken for outside.
    Refused(Command),
    /// This line, next to the range, is taken for the command that it wraps to.
    Passed(&'static str, Command),
    /// Numbers wrap.
    Wraps,
    /// 0 is listed with a minus.
    MinusZeroListed,
    /// 0 is listed as 00.
    ZerosListed,
    /// −2^63 is listed as −0: it has no absolute value in 64 bits.
    LeastListed,
    /// Bnz's operand is listed as if it had no sign.
    Unsigned,
    /// The listing's last newline is missing.
    NewlineMissing,
    /// Refusal 2 has the command's number for its offset.
    CodeCounted,
    /// Refusal 3 has the operand's offset.
    OperandOffset,
    /// Pages over 15 are listed.
    PageListed,
    /// Page 16 is listed.
    PageSixteen,
    /// A page over 15 is refused by 2.
    PageAsCode,
    /// A cut OutputTo is refused by 12.
    PageBeforeCut,
    /// Refusal 12 has the operand's offset.
    PageOffset,
    /// OutputTo is listed without its page.
    PageLost,
    /// Calls whose operands are out of range are listed.
    CallListed,
    /// A call with 16 arguments is listed.
    CallSixteen,
    /// A call with 2 results is listed.
    CallTwo,
    /// A call is listed if its operand word is that of one.
    CallPacked,
    /// A call out of range is refused by 2.
    CallAsCode,
    /// A call out of range is refused by 12.
    CallAsPage,
    /// A cut CallN is refused by 14.
    CallBeforeCut,
    /// Refusal 14 has the operand's offset.
    CallOffset,
    /// CallN is listed without its second operand.
    SecondLost,
    /// CallN is listed with its operand word.
    WordListed,
    /// The two operands of a CallN are listed the other way round.
    SwappedListed,
    /// 8 goes before the other refusals.
    ShortFirst,
    /// A buffer that fits exactly is too short.
    ExactRefused,
    /// A buffer that is one byte short is taken for long enough, and filled.
    ShortPassed,
    /// Of a refused input what stands before the fault is written.
    RefusalWrites,
    /// A buffer that is too short is filled.
    ShortWrites,
    /// The rest of the buffer is cleared.
    RestCleared,
    /// 8 has the place of another space.
    ShortPlace,
    /// A refusal comes with the length that was needed.
    RefusalLength,
}

const OF_READER: [Fault; 50] = [
    Fault::LinesFromZero,
    Fault::NewlineNeeded,
    Fault::EmptyLinePassed,
    Fault::LimitLower,
    Fault::LimitHigher,
    Fault::LimitFirst,
    Fault::LimitLast,
    Fault::AnyCase,
    Fault::NameCut,
    Fault::NameLonger,
    Fault::Taken("\t", " "),
    Fault::Taken("\r", ""),
    Fault::Taken("  ", " "),
    Fault::Taken("+", ""),
    Fault::Taken("\0", ""),
    Fault::Taken("--", ""),
    Fault::TrailingSpace,
    Fault::RestPassed,
    Fault::OperandMissing,
    Fault::RangeFirst,
    Fault::ZerosRefused,
    Fault::ZerosCounted,
    Fault::Octal,
    Fault::MinusZeroRefused,
    Fault::Refused(Push(i64::MAX)),
    Fault::Refused(Push(i64::MIN)),
    Fault::Refused(Bnz(i16::MAX)),
    Fault::Refused(Bnz(i16::MIN)),
    Fault::Refused(OutputTo(0)),
    Fault::Refused(OutputTo(15)),
    Fault::Passed("Push 9223372036854775808", Push(i64::MIN)),
    Fault::Passed("Push -9223372036854775809", Push(i64::MAX)),
    Fault::Passed("Bnz 32768", Bnz(i16::MIN)),
    Fault::Passed("Bnz -32769", Bnz(i16::MAX)),
    Fault::Passed("OutputTo 16", OutputTo(16)),
    Fault::Passed("OutputTo -1", OutputTo(15)),
    Fault::Taken("Output ", "OutputTo "),
    Fault::Wraps,
    Fault::Refused(CallN(0, 0)),
    Fault::Refused(CallN(15, 1)),
    Fault::Passed("CallN 16 1", CallN(16, 1)),
    Fault::Passed("CallN -1 1", CallN(15, 1)),
    Fault::Passed("CallN 2 2", CallN(2, 2)),
    Fault::Passed("CallN 2 -1", CallN(2, 1)),
    Fault::Taken("Call ", "CallN "),
    Fault::SecondMissing,
    Fault::WordTaken,
    Fault::SwappedRead,
    Fault::RangeAsRead,
    Fault::SecondUnchecked,
];

const OF_LISTER: [Fault; 25] = [
    Fault::LimitLower,
    Fault::MinusZeroListed,
    Fault::ZerosListed,
    Fault::LeastListed,
    Fault::Unsigned,
    Fault::NewlineMissing,
    Fault::CodeCounted,
    Fault::OperandOffset,
    Fault::PageListed,
    Fault::PageSixteen,
    Fault::PageAsCode,
    Fault::PageBeforeCut,
    Fault::PageOffset,
    Fault::PageLost,
    Fault::CallListed,
    Fault::CallSixteen,
    Fault::CallTwo,
    Fault::CallPacked,
    Fault::CallAsCode,
    Fault::CallAsPage,
    Fault::CallBeforeCut,
    Fault::CallOffset,
    Fault::SecondLost,
    Fault::WordListed,
    Fault::SwappedListed,
];

const OF_BOTH: [Fault; 8] = [
    Fault::ShortFirst,
    Fault::ExactRefused,
    Fault::ShortPassed,
    Fault::RefusalWrites,
    Fault::ShortWrites,
    Fault::RestCleared,
    Fault::ShortPlace,
    Fault::RefusalLength,
];

/// Every fault, with the way that has it.
pub fn faults() -> impl Iterator<Item = (Way, Fault)> {
    let of = |way: Way, faults: &'static [Fault]| faults.iter().map(move |&fault| (way, fault));
    let of_reader = of(Way::Read, &OF_READER).chain(of(Way::Read, &OF_BOTH));
    of_reader.chain(of(Way::List, &OF_LISTER)).chain(of(Way::List, &OF_BOTH))
}

/// The model with one fault in one way.
pub struct Faulty(pub Way, pub Fault);

impl Faulty {
    /// The command of a line.
    fn command(&self, line: &[u8]) -> Result<Command, LineFault> {
        let right = command(line);
        let text = String::from_utf8_lossy(line);
        let (name, operand) = text.split_once(' ').unwrap_or((&text, ""));
        let retry = |line: String| command(line.as_bytes());
        let renamed = |test: &dyn Fn(&str) -> bool| match EACH.into_iter().find(|each| test(each.name())) {
            Some(each) => retry(format!("{}{}", each.name(), &text[name.len()..])),
            None => right,
        };
        let operands: Vec<&str> = text.split(' ').skip(1).collect();
        let is_outside = |(index, word): (usize, &&str)| outside_at(name, index, word);
        let of_call = |fault: LineFault| name == "CallN" && right == Err(fault);
        let zero = right.is_ok_and(|command| command.operands().contains(&0));
        let zeros = operand.trim_start_matches('-').starts_with('0') && !zero;
        match self.1 {
            Fault::AnyCase => renamed(&|each| each.eq_ignore_ascii_case(name)),
            Fault::NameCut => renamed(&|each| !name.is_empty() && each.starts_with(name)),
            Fault::NameLonger => renamed(&|each| name.starts_with(each)),
            Fault::Taken(what, means) => retry(text.replace(what, means)),
            Fault::TrailingSpace => retry(text.trim_end_matches(' ').into()),
            Fault::RestPassed => {
                let wants = if name == "CallN" { 2 } else { 1 };
                retry(text.split(' ').take(1 + wants).collect::<Vec<_>>().join(" "))
            }
            Fault::OperandMissing if right.is_err() && operand.is_empty() => retry(format!("{name} 0")),
            Fault::RangeFirst if operands.iter().enumerate().any(is_outside) => Err(LineFault::Outside),
            Fault::SecondMissing if of_call(LineFault::OperandCount) => retry(format!("{text} 0")),
            Fault::WordTaken if of_call(LineFault::OperandCount) => match operand.parse::<u8>() {
                Ok(word) => Ok(CallN(word / 16, word % 16)),
                Err(_) => right,
            },
            Fault::SwappedRead => match right {
                Ok(CallN(arguments, results)) => Ok(CallN(results, arguments)),
                _ => right,
            },
            Fault::RangeAsRead if of_call(LineFault::BadOperand) && is_outside((0, &operands[0])) => {
                Err(LineFault::Outside)
            }
            Fault::SecondUnchecked if of_call(LineFault::Outside) => {
                retry(format!("{name} {} 0", operands[0]))
            }
            Fault::ZerosRefused if zeros => Err(LineFault::BadOperand),
            Fault::ZerosCounted if right.is_ok() && operand.len() > 20 => Err(LineFault::Outside),
            Fault::Octal if zeros && name == "Push" => {
                i64::from_str_radix(operand, 8).map_or(right, |number| Ok(Push(number)))
            }
            Fault::MinusZeroRefused if operand.starts_with('-') && operand.parse() == Ok(0) => {
                Err(LineFault::BadOperand)
            }
            Fault::Refused(limit) if right == Ok(limit) => Err(LineFault::Outside),
            Fault::Passed(next, taken) if text == next => Ok(taken),
            Fault::Wraps if right == Err(LineFault::Outside) => match operand.parse::<i128>() {
                Ok(number) if name == "Push" => Ok(Push(number as i64)),
                Ok(number) if name == "Bnz" => Ok(Bnz(number as i16)),
                Ok(number) if (number as u8) < PAGES => Ok(OutputTo(number as u8)),
                Ok(_) => right,
                Err(_) => wrapped_call(&operands).unwrap_or(right),
            },
            _ => right,
        }
    }

    /// Writes what an input comes to, as far as its fault where it is refused.
    fn write(&self, bytes: &[u8], refusal: Option<Refusal>, buffer: &mut [u8]) -> Written {
        let fault = self.1;
        let room = match fault {
            Fault::ExactRefused => buffer.len().saturating_sub(1),
            Fault::ShortPassed => buffer.len() + 1,
            _ => buffer.len(),
        };
        let short =
            (room < bytes.len()).then_some(Refusal::new(8, if fault == Fault::ShortPlace { 3 } else { 4 }));
        let refusal = if fault == Fault::ShortFirst { short.or(refusal) } else { refusal.or(short) };
        let writes = match refusal {
            None => true,
            Some(Refusal { number: 8, .. }) => fault == Fault::ShortWrites,
            Some(_) => fault == Fault::RefusalWrites,
        };
        if writes {
            let length = bytes.len().min(buffer.len());
            buffer[..length].copy_from_slice(&bytes[..length]);
            if fault == Fault::RestCleared {
                buffer[length..].fill(0);
            }
        }
        let mut answer = written(refusal.map_or(Ok(bytes.len()), Err));
        if fault == Fault::RefusalLength {
            answer[2] = bytes.len() as u64;
        }
        answer
    }
}

impl Texts for Faulty {
    fn assemble(&self, text: &[u8], buffer: &mut [u8]) -> Written {
        let Faulty(Way::Read, fault) = *self else { return Itself.assemble(text, buffer) };
        let mut all: Vec<&[u8]> = lines(text).collect();
        match fault {
            Fault::EmptyLinePassed => all.retain(|line| !line.is_empty()),
            Fault::LimitFirst if all.len() > COMMANDS => all.fill(b"Add"),
            _ => {}
        }
        let mut commands = Vec::new();
        let mut refusal = None;
        for (line, number) in all.iter().zip(1..) {
            let mut command = self.command(line);
            let too_many = match fault {
                Fault::LimitLower => number >= COMMANDS,
                Fault::LimitHigher => number > COMMANDS + 1,
                Fault::LimitLast => number > COMMANDS && command.is_ok(),
                _ => number > COMMANDS,
            };
            if too_many {
                command = Err(LineFault::TooMany);
            } else if fault == Fault::NewlineNeeded && number == all.len() && !text.ends_with(b"\n") {
                command = Err(LineFault::UnknownName);
            }
            match command {
                Ok(command) => commands.push(command),
                Err(wrong) => {
                    let from_zero = usize::from(fault == Fault::LinesFromZero);
                    refusal = Some(Refusal::new(wrong.number(), number - from_zero));
                    break;
                }
            }
        }
        self.write(&encode(&commands), refusal, buffer)
    }

    fn list(&self, sheet: &[u8], buffer: &mut [u8]) -> Written {
        let Faulty(Way::List, fault) = *self else { return Itself.list(sheet, buffer) };
        let (mut commands, mut refusal) = pass(fault, sheet);
        if fault == Fault::LimitLower && commands.len() == COMMANDS {
            commands.pop();
            refusal = Some(Refusal::new(1, encode(&commands).len()));
        }
        match &mut refusal {
            Some(Refusal { number: 2, place }) if fault == Fault::CodeCounted => {
                *place = commands.len() as u64
            }
            Some(Refusal { number: 3, place }) if fault == Fault::OperandOffset => *place += 1,
            Some(Refusal { number: number @ 3, place }) if fault == Fault::PageBeforeCut => {
                *number = if sheet[*place as usize] == 0x0c { 12 } else { 3 };
            }
            Some(Refusal { number: number @ 12, .. }) if fault == Fault::PageAsCode => *number = 2,
            Some(Refusal { number: 12, place }) if fault == Fault::PageOffset => *place += 1,
            Some(Refusal { number: number @ 3, place }) if fault == Fault::CallBeforeCut => {
                *number = if sheet[*place as usize] == 0x0d { 14 } else { 3 };
            }
            Some(Refusal { number: number @ 14, .. }) if fault == Fault::CallAsCode => *number = 2,
            Some(Refusal { number: number @ 14, .. }) if fault == Fault::CallAsPage => *number = 12,
            Some(Refusal { number: 14, place }) if fault == Fault::CallOffset => *place += 1,
            _ => {}
        }
        for command in commands.iter_mut().filter(|_| fault == Fault::SwappedListed) {
            if let CallN(arguments, results) = command {
                std::mem::swap(arguments, results);
            }
        }
        let mut text = normal(&commands);
        match fault {
            Fault::MinusZeroListed => text = text.replace(" 0\n", " -0\n"),
            Fault::ZerosListed => text = text.replace(" 0\n", " 00\n"),
            Fault::LeastListed => text = text.replace("-9223372036854775808", "-0"),
            Fault::Unsigned => text = text.replace("Bnz -1\n", "Bnz 65535\n"),
            Fault::PageLost => text = text.replace("OutputTo 15\n", "OutputTo\n"),
            Fault::SecondLost => text = text.replace("CallN 15 1\n", "CallN 15\n"),
            Fault::WordListed => text = text.replace("CallN 15 1\n", "CallN 241\n"),
            Fault::NewlineMissing => text.truncate(text.len().saturating_sub(1)),
            _ => {}
        }
        self.write(text.as_bytes(), refusal, buffer)
    }
}

/// The CallN whose operands are what is left of these in eight bits.
fn wrapped_call(operands: &[&str]) -> Option<Result<Command, LineFault>> {
    let [arguments, results] = operands else { return None };
    let wrapped = |operand: &str| Some(operand.parse::<i128>().ok()? as u8);
    let (arguments, results) = (wrapped(arguments)?, wrapped(results)?);
    (arguments <= ARGUMENTS && results <= RESULTS).then_some(Ok(CallN(arguments, results)))
}

/// The command that passes with the fault and should not, given its operands and the number that refuses it.
fn passes(fault: Fault, number: u64, operands: &[u8]) -> Option<Command> {
    match (number, operands) {
        (12, &[page, ..]) => {
            let passes = fault == Fault::PageListed || fault == Fault::PageSixteen && page == PAGES;
            passes.then_some(OutputTo(page))
        }
        (14, &[arguments, results, ..]) => {
            let call = CallN(arguments, results);
            let word = 16 * u16::from(arguments) + u16::from(results);
            let unpacked = CallN((word / 16) as u8, (word % 16) as u8);
            match fault {
                Fault::CallListed => Some(call),
                Fault::CallSixteen if arguments == ARGUMENTS + 1 && results <= RESULTS => Some(call),
                Fault::CallTwo if arguments <= ARGUMENTS && results == RESULTS + 1 => Some(call),
                Fault::CallPacked => Some(unpacked).filter(|&call| decode(&encode(&[call])).is_ok()),
                _ => None,
            }
        }
        _ => None,
    }
}

/// The commands of a sheet as far as they pass, and the refusal of the next. With the fault some pass that should not.
fn pass(fault: Fault, sheet: &[u8]) -> (Vec<Command>, Option<Refusal>) {
    let refusal = match decode(sheet) {
        Ok(commands) => return (commands, None),
        Err(refusal) => refusal,
    };
    let at = refusal.place as usize;
    let mut commands = decode(&sheet[..at]).unwrap_or_default();
    let Some(command) = passes(fault, refusal.number, &sheet[at + 1..]) else {
        return (commands, Some(refusal));
    };
    let next = at + encode(&[command]).len();
    let (rest, refusal) = pass(fault, &sheet[next..]);
    commands.push(command);
    commands.extend(rest);
    (commands, refusal.map(|Refusal { number, place }| Refusal { number, place: place + next as u64 }))
}
