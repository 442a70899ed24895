//! What was read, listed and refused, how often.

use super::{Case, Way};
use crate::backend::Itself;
use model::sheet::{decode, Command, Command::*, ARGUMENTS, COMMANDS, EACH, RESULTS};
use model::text::{command, lines, read, LineFault};

type Met = Vec<(&'static str, bool)>;

/// Counts for one way, by name; empty before the first case.
#[derive(Clone, Default)]
struct Counts(Vec<(&'static str, u64)>);

impl Counts {
    fn add(&mut self, met: Met) {
        if self.0.is_empty() {
            self.0 = met.iter().map(|&(name, _)| (name, 0)).collect();
        }
        for ((_, count), (_, met)) in self.0.iter_mut().zip(met) {
            *count += u64::from(met);
        }
    }
}

#[derive(Clone, Default)]
pub struct Tally {
    read: Counts,
    listed: Counts,
    /// Bytes of texts and sheets.
    bytes: u64,
}

impl Tally {
    /// Counts what the model answers to a case.
    pub fn note(&mut self, case: &Case) {
        let ([refusal, ..], _) = case.run(&Itself);
        self.bytes += case.input.len() as u64;
        match case.way {
            Way::Read => self.read.add(read_met(case, refusal)),
            Way::List => self.listed.add(listed_met(case, refusal)),
        }
    }

    fn ways(&self) -> [(&'static str, &Counts); 2] {
        [("reader", &self.read), ("lister", &self.listed)]
    }

    /// What was not reached though it should be.
    pub fn missing(&self) -> Vec<String> {
        let mut missing = Vec::new();
        for (way, Counts(counts)) in self.ways() {
            if counts.is_empty() {
                missing.push(format!("{way}: any case"));
            }
            let never = counts.iter().filter(|&&(_, count)| count == 0);
            missing.extend(never.map(|(name, _)| format!("{way}: {name}")));
        }
        missing
    }

    pub fn print(&self) {
        for (way, Counts(counts)) in self.ways() {
            println!("{way:>34}");
            for (name, count) in counts {
                println!("{name:>34} {count:>12}");
            }
        }
        println!("texts and sheets of {} bytes", self.bytes);
    }
}

/// What may be met of a buffer, either way.
fn buffer_met(case: &Case, refusal: u64) -> Met {
    let (length, whole) = (case.buffer.len(), case.way.whole(&case.input).len());
    vec![
        ("all of the buffer is written", refusal == 0 && length == whole && whole > 0),
        ("a part of the buffer is written", refusal == 0 && length > whole && whole > 0),
        ("8", refusal == 8),
        ("8 by one byte", refusal == 8 && length + 1 == whole),
        ("8 where there is no buffer", refusal == 8 && length == 0),
        ("another refusal before 8", ![0, 8].contains(&refusal) && length < whole),
    ]
}

/// What may be met in commands that were read or listed.
fn commands_met(commands: Option<&[Command]>) -> Met {
    let commands = |test: &dyn Fn(&[Command]) -> bool| commands.is_some_and(test);
    let named = |name| commands(&|all| all.iter().any(|command| command.name() == name));
    let has = |command| commands(&|all| all.contains(&command));
    let mut met: Met = EACH.into_iter().map(|each| (each.name(), named(each.name()))).collect();
    met.extend([
        ("Push 2^63-1", has(Push(i64::MAX))),
        ("Push -2^63", has(Push(i64::MIN))),
        ("Push 0", has(Push(0))),
        ("Bnz 32767", has(Bnz(i16::MAX))),
        ("Bnz -32768", has(Bnz(i16::MIN))),
        ("Bnz 0", has(Bnz(0))),
        ("OutputTo 0", has(OutputTo(0))),
        ("OutputTo 15", has(OutputTo(15))),
        ("CallN 0 0", has(CallN(0, 0))),
        ("CallN 0 1", has(CallN(0, 1))),
        ("CallN 15 0", has(CallN(15, 0))),
        ("CallN 15 1", has(CallN(15, 1))),
        ("no command", commands(&|all| all.is_empty())),
        ("4,096 commands", commands(&|all| all.len() == COMMANDS)),
    ]);
    met
}

fn listed_met(case: &Case, refusal: u64) -> Met {
    let mut met = buffer_met(case, refusal);
    met.extend(commands_met(decode(&case.input).ok().filter(|_| refusal == 0).as_deref()));
    let at = decode(&case.input).err().map(|refusal| refusal.place as usize);
    let code = at.map(|at| case.input[at]);
    let next = at.and_then(|at| case.input.get(at + 1).copied());
    let page = next.filter(|_| refusal == 12);
    let later = at.is_some_and(|at| page.is_some() && decode(&case.input[at + 2..]).is_err());
    let operands = at.and_then(|at| case.input[at + 1..].first_chunk()).filter(|_| code == Some(0x0d));
    let [first, second] = *operands.unwrap_or(&[0, 0]);
    let of_call = |number| refusal == number && code == Some(0x0d);
    let call_later = at.is_some_and(|at| of_call(14) && decode(&case.input[at + 3..]).is_err());
    met.extend([
        ("1", refusal == 1),
        ("1 at a page over 15", refusal == 1 && next.is_some_and(|page| code == Some(0x0c) && page > 15)),
        ("2", refusal == 2),
        ("1 at a call out of range", of_call(1) && (first > ARGUMENTS || second > RESULTS)),
        ("2, 0f", refusal == 2 && code == Some(0x0f)),
        ("3", refusal == 3),
        ("3, CallN", of_call(3)),
        ("3, CallN with one operand", of_call(3) && next.is_some()),
        ("3, CallN with one over 15", of_call(3) && next.is_some_and(|first| first > ARGUMENTS)),
        ("14, the first alone", of_call(14) && first > ARGUMENTS && second <= RESULTS),
        ("14, the second alone", of_call(14) && first <= ARGUMENTS && second > RESULTS),
        ("14, both", of_call(14) && first > ARGUMENTS && second > RESULTS),
        ("14, 16 arguments", of_call(14) && first == ARGUMENTS + 1),
        ("14, 2 results", of_call(14) && second == RESULTS + 1),
        ("14, 00 10", of_call(14) && [first, second] == [0, 0x10]),
        ("14, over 127", of_call(14) && first.max(second) > 127),
        ("14 before another", call_later),
        ("3, OutputTo", refusal == 3 && code == Some(0x0c)),
        ("12", refusal == 12),
        ("12, page 16", page == Some(16)),
        ("12, page over 127", page.is_some_and(|page| page > 127)),
        ("12 before another", later),
    ]);
    met
}

/// A line's words, the name first.
fn words(line: &[u8]) -> Vec<String> {
    String::from_utf8_lossy(line).split(' ').map(str::to_owned).collect()
}

/// What may be met in the operands of a text that is read: each is digits, perhaps after a minus.
fn operands_met(text: &[u8], is_read: bool) -> Met {
    let operands: Vec<String> = lines(text).flat_map(|line| words(line).split_off(1)).collect();
    let any = |test: &dyn Fn(&str) -> bool| is_read && operands.iter().any(|operand| test(operand));
    let digits = |operand: &str| operand.trim_start_matches('-').to_owned();
    vec![
        ("leading zeros", any(&|operand| digits(operand).len() > 1 && digits(operand).starts_with('0'))),
        ("a minus before 0", any(&|operand| operand.starts_with('-') && operand.parse() == Ok(0))),
        ("a minus before page 0", is_read && lines(text).any(|line| line.starts_with(b"OutputTo -"))),
        ("a minus before 0 arguments", is_read && lines(text).any(|line| line.starts_with(b"CallN -"))),
        ("over 100 digits", any(&|operand| operand.len() > 100)),
    ]
}

/// Whether a numeral is outside the range of that operand of the command of this name, or of its only one.
pub fn outside_at(name: &str, index: usize, operand: &str) -> bool {
    let line = match (name, index) {
        ("CallN", 0) => format!("{name} {operand} 0"),
        ("CallN", _) => format!("{name} 0 {operand}"),
        _ => format!("{name} {operand}"),
    };
    command(line.as_bytes()) == Err(LineFault::Outside)
}

/// What may be met at the line that is refused.
fn line_met(line: &[u8], fault: Option<LineFault>) -> Met {
    let is = |kind| fault == Some(kind);
    let (unknown, outside) = (is(LineFault::UnknownName), is(LineFault::Outside));
    let ten = unknown || is(LineFault::OperandCount) || is(LineFault::BadOperand);
    let words = words(line);
    let (name, operands) = (words[0].as_str(), &words[1..]);
    let alike = |test: &dyn Fn(&str) -> bool| unknown && EACH.into_iter().any(|each| test(each.name()));
    let is_outside =
        |index: usize| operands.get(index).is_some_and(|operand| outside_at(name, index, operand));
    let any_outside = (0..operands.len()).any(is_outside);
    let next = |each: &str, number: i128| outside && name == each && operands[0].parse() == Ok(number);
    let call = |is: bool| is && name == "CallN";
    let number = |index: usize| operands.get(index).and_then(|operand| operand.parse::<i128>().ok());
    let count = |of: usize| call(is(LineFault::OperandCount)) && operands.len() == of;
    let (first, second) = (call(is_outside(0)), call(is_outside(1)));
    vec![
        ("1", is(LineFault::TooMany)),
        ("1 at a line that is 10 or 11", is(LineFault::TooMany) && command(line).is_err()),
        ("10, name", unknown),
        ("10, name in another case", alike(&|each| each.eq_ignore_ascii_case(name))),
        ("10, start of a name", alike(&|each| !name.is_empty() && each.starts_with(name))),
        ("10, more than a name", alike(&|each| name.starts_with(each))),
        ("10, empty line", ten && line.is_empty()),
        ("10, operand count", is(LineFault::OperandCount)),
        ("10, Output with an operand", is(LineFault::OperandCount) && name == "Output"),
        (
            "10, OutputTo without one",
            is(LineFault::OperandCount) && name == "OutputTo" && operands.is_empty(),
        ),
        ("10, operand badly written", is(LineFault::BadOperand)),
        ("10 before 11", ten && any_outside),
        ("10, Call with operands", is(LineFault::OperandCount) && name == "Call"),
        ("10, RetV with an operand", is(LineFault::OperandCount) && name == "RetV"),
        ("10, CallN without operands", count(0)),
        ("10, CallN with one", count(1)),
        ("10, CallN with three", count(3)),
        ("10 of the second before 11", is(LineFault::BadOperand) && first),
        ("10 of the first before 11", is(LineFault::BadOperand) && second),
        ("11", outside),
        ("11, Push 2^63", next("Push", 1 << 63)),
        ("11, Push -2^63-1", next("Push", (-1 << 63) - 1)),
        ("11, Bnz 32768", next("Bnz", 32_768)),
        ("11, Bnz -32769", next("Bnz", -32_769)),
        ("11, OutputTo 16", next("OutputTo", 16)),
        ("11, OutputTo -1", next("OutputTo", -1)),
        ("11, OutputTo 256", next("OutputTo", 256)),
        ("11, CallN, the first alone", outside && first && !second),
        ("11, CallN, the second alone", outside && second && !first),
        ("11, CallN, both", outside && first && second),
        ("11, CallN 16", call(outside) && number(0) == Some(16)),
        ("11, CallN -1", call(outside) && number(0) == Some(-1)),
        ("11, CallN, results 2", call(outside) && number(1) == Some(2)),
        ("11, CallN, results -1", call(outside) && number(1) == Some(-1)),
        ("11, over 100 digits", outside && operands[0].len() > 100),
    ]
}

fn read_met(case: &Case, refusal: u64) -> Met {
    let text = &case.input;
    let is_read = refusal == 0;
    let outcome = read(text);
    let (fault, number) = outcome.as_ref().err().map_or((None, 1), |&(fault, number)| (Some(fault), number));
    let mut met = buffer_met(case, refusal);
    met.extend(commands_met(outcome.ok().filter(|_| is_read).as_deref()));
    met.extend(operands_met(text, is_read));
    met.push(("no last newline", is_read && !text.is_empty() && !text.ends_with(b"\n")));
    met.extend(line_met(lines(text).nth(number - 1).unwrap_or_default(), fault));
    let early = fault.is_some_and(|fault| fault != LineFault::TooMany);
    met.push(("10 or 11 before line 4,097", early && lines(text).count() > COMMANDS));
    met
}
