//! Makes texts to read and sheets to list, some of them damaged.

use super::{Case, Way};
use crate::generate::{any_command, damage, damage_sheet, encoded, length};
use crate::random::Random;
use model::sheet::{Command, Command::*, COMMANDS, PAGES};

pub fn case(random: &mut Random) -> Case {
    let (way, input) =
        if random.percent(65) { (Way::Read, text(random)) } else { (Way::List, sheet(random)) };
    let length = length(random, way.whole(&input).len());
    Case { way, input, buffer: random.bytes(length) }
}

fn commands(random: &mut Random) -> Vec<Command> {
    let count = match random.weighted(&[3, 82, 14, 1]) {
        0 => 0,
        1 => random.between(1, 8),
        2 => random.between(9, 80),
        _ => random.between(4095, 4098),
    };
    (0..count).map(|_| command(random)).collect()
}

fn command(random: &mut Random) -> Command {
    match any_command(random) {
        Bnz(_) if random.percent(40) => Bnz(random.pick(&[i16::MIN, i16::MIN + 1, i16::MAX - 1, i16::MAX])),
        Bnz(_) if random.percent(40) => Bnz(random.word() as i16),
        command => command,
    }
}

fn sheet(random: &mut Random) -> Vec<u8> {
    let commands = commands(random);
    let mut sheet = encoded(random, commands);
    if random.percent(15) {
        damage_sheet(random, &mut sheet);
    }
    sheet
}

/// A numeral for a number, the normal one or not.
fn numeral(random: &mut Random, number: i128) -> String {
    let zeros = match random.weighted(&[85, 10, 4, 1]) {
        0 => 0,
        1 => random.between(1, 3),
        2 => random.between(4, 30),
        _ => random.between(100, 600),
    };
    let minus = number < 0 || number == 0 && random.percent(20);
    format!("{}{}{}", if minus { "-" } else { "" }, "0".repeat(zeros), number.unsigned_abs())
}

/// What is next to the range of each of a command's operands: above it, below it; and what is 0 in as many bits. A
/// command that has none is taken for a Push.
fn next_to(command: Command) -> Vec<[i128; 3]> {
    match command {
        OutputTo(_) => vec![[PAGES.into(), -1, 1 << 8]],
        CallN(..) => vec![[16, -1, 1 << 8], [2, -1, 1 << 8]],
        Bnz(_) => vec![[1 << 15, (-1 << 15) - 1, 1 << 16]],
        _ => vec![[1 << 63, (-1 << 63) - 1, 1 << 64]],
    }
}

/// A numeral for a number outside a range, next to it in some cases.
fn outside(random: &mut Random, [above, below, wraps]: [i128; 3]) -> String {
    let wraps = wraps * random.between(1, 9) as i128;
    match random.weighted(&[30, 30, 10, 10, 10, 10]) {
        0 => numeral(random, above),
        1 => numeral(random, below),
        2 => numeral(random, wraps),
        3 => numeral(random, -wraps),
        4 => random.pick(&["9", "-9"]).to_string() + &"0".repeat(random.between(20, 600)),
        _ => random.pick(&["", "-"]).to_string() + &"9".repeat(random.between(20, 600)),
    }
}

/// A line whose operands are outside their ranges, or one of them is.
fn outside_line(random: &mut Random, command: Command) -> Vec<u8> {
    let ranges = next_to(command);
    let at = random.below(ranges.len() + 1);
    let mut line = command.name().to_owned();
    for (index, range) in ranges.into_iter().enumerate() {
        let inside = command.operands().get(index).filter(|_| index + 1 == at).copied();
        let operand = match inside {
            Some(operand) => numeral(random, operand.into()),
            None => outside(random, range),
        };
        line += &format!(" {operand}");
    }
    line.into()
}

fn line(random: &mut Random, command: Command) -> Vec<u8> {
    let mut line = command.name().to_owned();
    for operand in command.operands() {
        line += &format!(" {}", numeral(random, operand.into()));
    }
    line.into()
}

/// Puts something else in the place of the space before an operand.
fn spoil_space(random: &mut Random, line: &mut Vec<u8>) {
    let spaces: Vec<usize> = (0..line.len()).filter(|&at| line[at] == b' ').collect();
    if !spaces.is_empty() {
        let at = random.pick(&spaces);
        let other = random.pick(&["", "  ", "\t", "\r", " +", " -", " --", "-", "\0", " \0"]);
        line.splice(at..=at, other.bytes());
    }
}

/// A line that is mostly refused.
fn faulty_line(random: &mut Random) -> Vec<u8> {
    let usual = [Push(-10), Bnz(7), OutputTo(3), CallN(2, 1), CallN(2, 1)];
    let command = if random.percent(60) { random.pick(&usual) } else { command(random) };
    let name = command.name();
    let mut line = line(random, command);
    match random.weighted(&[34, 8, 12, 14, 12, 12, 12, 6, 2]) {
        0 => {
            line = outside_line(random, command);
            if random.percent(15) {
                spoil_space(random, &mut line);
            }
        }
        // one operand too many
        1 => line.extend(format!(" {}", outside(random, next_to(command)[0])).bytes()),
        2 => line.extend(random.pick(&[" ", "  ", "\t", "\r", " 1", " -", "-", "\0", ";"]).bytes()),
        3 if line.len() > name.len() => spoil_space(random, &mut line),
        // a letter in the other case
        3 | 4 => line[random.below(name.len())] ^= 0x20,
        // a part of the name, or more than the name
        5 if random.percent(50) => {
            line.drain(random.below(name.len())..name.len());
        }
        5 => {
            let more = random.pick(&["s", "x", "Add", "0", "\t", "-"]);
            line.splice(name.len()..name.len(), more.bytes());
        }
        6 => damage(random, &mut line, b" -+\t\r09:/aA\0\xb1"),
        // one operand too few
        7 => line.truncate(line.iter().rposition(|&byte| byte == b' ').unwrap_or(0)),
        _ => line.clear(),
    }
    line
}

fn text(random: &mut Random) -> Vec<u8> {
    let mut lines: Vec<Vec<u8>> = Vec::new();
    for command in commands(random) {
        lines.push(line(random, command));
    }
    while !lines.is_empty() && random.percent(35) {
        let last = lines.len() - 1;
        let at =
            if random.percent(35) { last.saturating_sub(random.below(3)) } else { random.below(last + 1) };
        lines[at] = faulty_line(random);
    }
    // The line that is one too many may be at fault itself.
    if lines.len() > COMMANDS && random.percent(30) {
        lines[COMMANDS] = faulty_line(random);
    }
    let mut text = lines.join(&b'\n');
    let end = match random.weighted(&[70, 25, 5]) {
        0 if !lines.is_empty() => "\n",
        0 | 1 => "",
        _ => "\n\n",
    };
    text.extend(end.bytes());
    if random.percent(8) {
        damage(random, &mut text, b" -+\n\r\t09:/AaPuBnzCV\0\xff");
    }
    text
}
