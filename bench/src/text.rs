//! Sheets in text, read and listed in safe Rust: into a `Vec` first, so that a refusal writes nothing.

use differential::text::{written, Texts, Written};
use model::sheet::{decode, Command::*, ARGUMENTS, COMMANDS, PAGES, RESULTS};
use model::text::lines;
use model::Refusal;

/// What one writes first: lines and words are cut out, names matched, and a sheet is decoded before it is listed.
pub struct Straightforward;

impl Texts for Straightforward {
    fn assemble(&self, text: &[u8], buffer: &mut [u8]) -> Written {
        written(assemble_by_words(text, buffer))
    }

    fn list(&self, sheet: &[u8], buffer: &mut [u8]) -> Written {
        written(list_commands(sheet, buffer))
    }
}

/// The fastest of the shapes that were tried. Slower to read are lines or names that are cut out before they are
/// compared, and a pass that only checks; slower to list are a pass for the checks or the length, and newlines apart from
/// the names.
pub struct Fast;

impl Texts for Fast {
    fn assemble(&self, text: &[u8], buffer: &mut [u8]) -> Written {
        written(assemble(text, buffer))
    }

    fn list(&self, sheet: &[u8], buffer: &mut [u8]) -> Written {
        written(list(sheet, buffer))
    }
}

/// The names in the order of their codes, each with what follows it: the space before an operand, or the line's end.
const NAMES: [&[u8]; 14] = [
    b"Add\n",
    b"Sub\n",
    b"Pop\n",
    b"Output\n",
    b"Push ",
    b"Load\n",
    b"Store\n",
    b"Jump\n",
    b"Bnz ",
    b"Call\n",
    b"Ret\n",
    b"OutputTo ",
    b"CallN ",
    b"RetV\n",
];

/// Room for each byte of a text: the shortest line of a Push, which gives nine bytes, has six. And for each byte of a
/// sheet: the longest line for one is Output's.
const SHEET_ROOM: usize = 2;
const TEXT_ROOM: usize = 7;

const MALFORMED: u64 = 10;
const OUTSIDE: u64 = 11;

/// Writes to the buffer's start what was made, if there is room: its length.
fn hand_over(made: &[u8], buffer: &mut [u8]) -> Result<usize, Refusal> {
    buffer.get_mut(..made.len()).ok_or(Refusal::new(8, 4))?.copy_from_slice(made);
    Ok(made.len())
}

#[inline(never)]
fn assemble_by_words(text: &[u8], buffer: &mut [u8]) -> Result<usize, Refusal> {
    let mut sheet = Vec::with_capacity(SHEET_ROOM * text.len());
    for (line, number) in lines(text).zip(1..) {
        if number > COMMANDS {
            return Err(Refusal::new(1, number));
        }
        read_words(line, &mut sheet).map_err(|refusal| Refusal::new(refusal, number))?;
    }
    hand_over(&sheet, buffer)
}

/// Reads a line's command, or gives its refusal's number.
fn read_words(line: &[u8], sheet: &mut Vec<u8>) -> Result<(), u64> {
    let mut words = line.split(|&byte| byte == b' ');
    let code = match words.next().unwrap_or_default() {
        b"Add" => 1,
        b"Sub" => 2,
        b"Pop" => 3,
        b"Output" => 4,
        b"Push" => 5,
        b"Load" => 6,
        b"Store" => 7,
        b"Jump" => 8,
        b"Bnz" => 9,
        b"Call" => 10,
        b"Ret" => 11,
        b"OutputTo" => 12,
        b"CallN" => 13,
        b"RetV" => 14,
        _ => return Err(MALFORMED),
    };
    sheet.push(code);
    let mut operand = || words.next().map(|word| number(word).ok_or(MALFORMED)).transpose();
    let operands = (operand()?, operand()?);
    match (code, operands, words.next()) {
        (5, (Some(number), None), None) => {
            sheet.extend(i64::try_from(number).map_err(|_| OUTSIDE)?.to_le_bytes());
        }
        (9, (Some(number), None), None) => {
            sheet.extend(i16::try_from(number).map_err(|_| OUTSIDE)?.to_le_bytes());
        }
        (12, (Some(number), None), None) => sheet.push(up_to(PAGES - 1, number).ok_or(OUTSIDE)?),
        (13, (Some(arguments), Some(results)), None) => {
            sheet.push(up_to(ARGUMENTS, arguments).ok_or(OUTSIDE)?);
            sheet.push(up_to(RESULTS, results).ok_or(OUTSIDE)?);
        }
        (5 | 9 | 12 | 13, ..) | (_, (Some(_), _), _) => return Err(MALFORMED),
        _ => {}
    }
    Ok(())
}

/// The number that a word is. Of a size of 2^64 and above comes 2^64 - 1, which is outside any range too.
fn number(word: &[u8]) -> Option<i128> {
    let digits = word.strip_prefix(b"-").unwrap_or(word);
    if digits.is_empty() || !digits.iter().all(u8::is_ascii_digit) {
        return None;
    }
    let more = |size: u64, digit: &u8| size.saturating_mul(10).saturating_add((digit - b'0').into());
    let size = i128::from(digits.iter().fold(0, more));
    Some(if digits.len() < word.len() { -size } else { size })
}

/// The byte of this number, unless it is below 0 or above the most.
fn up_to(most: u8, number: i128) -> Option<u8> {
    u8::try_from(number).ok().filter(|&byte| byte <= most)
}

#[inline(never)]
fn list_commands(sheet: &[u8], buffer: &mut [u8]) -> Result<usize, Refusal> {
    let mut text = Vec::with_capacity(TEXT_ROOM * sheet.len());
    for command in decode(sheet)? {
        text.extend_from_slice(command.name().as_bytes());
        let operand = match command {
            Push(number) => number,
            Bnz(distance) => distance.into(),
            OutputTo(page) => page.into(),
            CallN(arguments, results) => {
                text.push(b' ');
                put_number(arguments.into(), &mut text);
                results.into()
            }
            _ => {
                text.push(b'\n');
                continue;
            }
        };
        text.push(b' ');
        put_operand(operand, &mut text);
    }
    hand_over(&text, buffer)
}

#[inline(never)]
fn assemble(text: &[u8], buffer: &mut [u8]) -> Result<usize, Refusal> {
    let mut sheet = Vec::with_capacity(SHEET_ROOM * text.len());
    let (mut rest, mut line) = (text, 0);
    while !rest.is_empty() {
        line += 1;
        if line > COMMANDS {
            return Err(Refusal::new(1, line));
        }
        rest = read_line(rest, &mut sheet).map_err(|number| Refusal::new(number, line))?;
    }
    hand_over(&sheet, buffer)
}

/// Reads the first line: what follows it, or its refusal's number.
fn read_line<'a>(text: &'a [u8], sheet: &mut Vec<u8>) -> Result<&'a [u8], u64> {
    let named = |(name, code): (&&[u8], u8)| Some((text.strip_prefix(name.trim_ascii_end())?, code));
    let (rest, code) = NAMES[..11].iter().zip(1..).find_map(named).ok_or(MALFORMED)?;
    // The last three are found as the names with which they start.
    if code == 4 {
        if let Some(rest) = rest.strip_prefix(b"To") {
            let (number, rest) = last_operand(rest).ok_or(MALFORMED)?;
            sheet.extend([12, up_to(PAGES - 1, number).ok_or(OUTSIDE)?]);
            return Ok(rest);
        }
    }
    if code == 10 {
        if let Some(rest) = rest.strip_prefix(b"N") {
            let (arguments, rest) = operand(rest).ok_or(MALFORMED)?;
            let (results, rest) = last_operand(rest).ok_or(MALFORMED)?;
            let arguments = up_to(ARGUMENTS, arguments).ok_or(OUTSIDE)?;
            sheet.extend([13, arguments, up_to(RESULTS, results).ok_or(OUTSIDE)?]);
            return Ok(rest);
        }
    }
    if code == 11 {
        if let Some(rest) = rest.strip_prefix(b"V") {
            sheet.push(14);
            return after_end(rest).ok_or(MALFORMED);
        }
    }
    sheet.push(code);
    match code {
        5 => {
            let (number, rest) = last_operand(rest).ok_or(MALFORMED)?;
            sheet.extend(i64::try_from(number).map_err(|_| OUTSIDE)?.to_le_bytes());
            Ok(rest)
        }
        9 => {
            let (number, rest) = last_operand(rest).ok_or(MALFORMED)?;
            sheet.extend(i16::try_from(number).map_err(|_| OUTSIDE)?.to_le_bytes());
            Ok(rest)
        }
        _ => after_end(rest).ok_or(MALFORMED),
    }
}

/// The operand that ends a line, and what follows the line.
fn last_operand(text: &[u8]) -> Option<(i128, &[u8])> {
    let (number, rest) = operand(text)?;
    Some((number, after_end(rest)?))
}

/// The operand after a space, and what follows it. Of a size of 2^64 and above comes 2^64 - 1, which is outside any range
/// too.
fn operand(text: &[u8]) -> Option<(i128, &[u8])> {
    let word = text.strip_prefix(b" ")?;
    let digits = word.strip_prefix(b"-").unwrap_or(word);
    let (mut size, mut count) = (0u64, 0);
    while let Some(digit @ b'0'..=b'9') = digits.get(count) {
        size = size.saturating_mul(10).saturating_add((digit - b'0').into());
        count += 1;
    }
    if count == 0 {
        return None;
    }
    let number = if digits.len() < word.len() { -i128::from(size) } else { size.into() };
    Some((number, &digits[count..]))
}

/// What follows the line's end, which the text's end is too.
fn after_end(text: &[u8]) -> Option<&[u8]> {
    match text {
        [] => Some(text),
        [b'\n', rest @ ..] => Some(rest),
        _ => None,
    }
}

#[inline(never)]
fn list(sheet: &[u8], buffer: &mut [u8]) -> Result<usize, Refusal> {
    let mut text = Vec::with_capacity(TEXT_ROOM * sheet.len());
    let (mut offset, mut count) = (0, 0);
    while let Some(&code) = sheet.get(offset) {
        if count == COMMANDS {
            return Err(Refusal::new(1, offset));
        }
        let name = NAMES.get(usize::from(code).wrapping_sub(1)).ok_or(Refusal::new(2, offset))?;
        text.extend_from_slice(name);
        let rest = &sheet[offset + 1..];
        let cut = Refusal::new(3, offset);
        if code > 12 {
            offset += list_call(code, rest, &mut text).map_err(|number| Refusal::new(number, offset))?;
            count += 1;
            continue;
        }
        match code {
            5 => {
                put_operand(i64::from_le_bytes(*rest.first_chunk().ok_or(cut)?), &mut text);
                offset += 9;
            }
            9 => {
                put_operand(i16::from_le_bytes(*rest.first_chunk().ok_or(cut)?).into(), &mut text);
                offset += 3;
            }
            12 => {
                let [page] = *rest.first_chunk().ok_or(cut)?;
                if page >= PAGES {
                    return Err(Refusal::new(12, offset));
                }
                put_operand(page.into(), &mut text);
                offset += 2;
            }
            _ => offset += 1,
        }
        count += 1;
    }
    hand_over(&text, buffer)
}

/// What follows the name of a CallN or a RetV: the command's width, or its refusal's number. Apart from the other operands,
/// since names alone are listed at half the speed with one more of them in the same choice.
fn list_call(code: u8, operands: &[u8], text: &mut Vec<u8>) -> Result<usize, u64> {
    if code == 14 {
        return Ok(1);
    }
    let [arguments, results] = *operands.first_chunk().ok_or(3u64)?;
    if arguments > ARGUMENTS || results > RESULTS {
        return Err(14);
    }
    if arguments >= 10 {
        text.push(b'1');
    }
    text.extend_from_slice(&[b'0' + arguments % 10, b' ', b'0' + results, b'\n']);
    Ok(3)
}

/// A number that ends a line.
fn put_operand(number: i64, text: &mut Vec<u8>) {
    put_number(number, text);
    text.push(b'\n');
}

fn put_number(number: i64, text: &mut Vec<u8>) {
    let mut digits = [0; 20];
    let (mut rest, mut start) = (number.unsigned_abs(), digits.len());
    loop {
        start -= 1;
        digits[start] = b'0' + (rest % 10) as u8;
        rest /= 10;
        if rest == 0 {
            break;
        }
    }
    if number < 0 {
        start -= 1;
        digits[start] = b'-';
    }
    text.extend_from_slice(&digits[start..]);
}
