//! Sheets in text: holds a reader and a lister to the model, in their answers and in every byte of the buffer, and to
//! giving back what they were given.

pub mod faults;
pub mod generate;
pub mod tally;

use crate::backend::Itself;
use crate::random::Random;
use crate::shrink::descend;
use model::edges;
use model::sheet::{decode, encode, COMMANDS};
use model::text::{assemble, command, lines, list, normal};
use model::Refusal;
use tally::Tally;

/// An answer as the C interface gives it: refusal, position, length.
pub type Written = [u64; 3];

pub fn written(answer: Result<usize, Refusal>) -> Written {
    match answer {
        Ok(length) => [0, 0, length as u64],
        Err(refusal) => [refusal.number, refusal.place, 0],
    }
}

pub trait Texts {
    /// Reads a text and writes its sheet to the buffer.
    fn assemble(&self, text: &[u8], buffer: &mut [u8]) -> Written;
    /// Writes the text of a sheet to the buffer.
    fn list(&self, sheet: &[u8], buffer: &mut [u8]) -> Written;
}

impl Texts for Itself {
    fn assemble(&self, text: &[u8], buffer: &mut [u8]) -> Written {
        written(assemble(text, buffer))
    }

    fn list(&self, sheet: &[u8], buffer: &mut [u8]) -> Written {
        written(list(sheet, buffer))
    }
}

/// From a text to its sheet, or from a sheet to its text.
#[derive(Clone, Copy, Debug, PartialEq, Eq)]
pub enum Way {
    Read,
    List,
}

impl Way {
    fn back(self) -> Way {
        match self {
            Way::Read => Way::List,
            Way::List => Way::Read,
        }
    }

    fn run(self, texts: &dyn Texts, input: &[u8], buffer: &mut [u8]) -> Written {
        match self {
            Way::Read => texts.assemble(input, buffer),
            Way::List => texts.list(input, buffer),
        }
    }

    /// The sheet of a text or the text of a sheet; where it is refused, of what stands before the fault.
    pub fn whole(self, input: &[u8]) -> Vec<u8> {
        match self {
            Way::Read => {
                let commands = lines(input).take(COMMANDS).map_while(|line| command(line).ok());
                encode(&commands.collect::<Vec<_>>())
            }
            Way::List => {
                let fine = decode(input).map_or_else(|refusal| refusal.place as usize, |_| input.len());
                normal(&decode(&input[..fine]).expect("no command before is at fault")).into()
            }
        }
    }
}

/// A text to read or a sheet to list, and the buffer that is lent for the other.
#[derive(Clone, Debug)]
pub struct Case {
    pub way: Way,
    pub input: Vec<u8>,
    pub buffer: Vec<u8>,
}

impl Case {
    fn run(&self, texts: &dyn Texts) -> (Written, Vec<u8>) {
        let mut buffer = self.buffer.clone();
        (self.way.run(texts, &self.input, &mut buffer), buffer)
    }

    fn compare(&self, texts: &dyn Texts) -> Result<(), String> {
        let (engine, by_engine) = self.run(texts);
        let (model, by_model) = self.run(&Itself);
        if engine != model {
            return Err(format!("engine answers {engine:?}, model {model:?}"));
        }
        if let Some(at) = (0..by_model.len()).find(|&at| by_engine[at] != by_model[at]) {
            return Err(format!("byte {at}: engine {:#04x}, model {:#04x}", by_engine[at], by_model[at]));
        }
        match model {
            [0, _, length] => self.there_and_back(texts, &by_model[..length as usize]),
            _ => Ok(()),
        }
    }

    /// Goes back from what was written. What was listed is read as the sheet that it was; what was read is listed as its
    /// normal text, and that is read as the same sheet.
    fn there_and_back(&self, texts: &dyn Texts, output: &[u8]) -> Result<(), String> {
        let go = |way: Way, input: &[u8]| {
            let mut buffer = way.whole(input);
            let expected = [0, 0, buffer.len() as u64];
            buffer.fill(0);
            match way.run(texts, input, &mut buffer) {
                answer if answer == expected => Ok(buffer),
                answer => Err(format!("on the way back: engine answers {answer:?}, not {expected:?}")),
            }
        };
        let back = go(self.way.back(), output)?;
        match self.way {
            Way::List if back != self.input => Err("the listing is read as another sheet".into()),
            Way::Read if back != Way::List.whole(output) => Err("the listing is not the normal text".into()),
            Way::Read if go(Way::Read, &back)? != output => Err("the normal text is another sheet".into()),
            _ => Ok(()),
        }
    }

    /// Cases that are a little smaller than this one, the boldest first.
    fn smaller(&self) -> Vec<Case> {
        let length = self.input.len();
        let mut cases = Vec::new();
        let mut size = length.div_ceil(2);
        while size > length / 65 {
            for first in (0..length).step_by(size) {
                let last = (first + size).min(length);
                let input = [&self.input[..first], &self.input[last..]].concat();
                cases.push(Case { input, ..self.clone() });
            }
            size /= 2;
        }
        let shorter = [self.buffer.len() / 2, self.buffer.len().saturating_sub(1)];
        for length in shorter.into_iter().filter(|&length| length < self.buffer.len()) {
            cases.push(Case { buffer: self.buffer[..length].to_vec(), ..self.clone() });
        }
        cases
    }

    fn describe(&self) -> String {
        let shown = &self.input[..self.input.len().min(400)];
        let (way, input, buffer) = (self.way, self.input.len(), self.buffer.len());
        format!("{way:?} of {input} bytes to a buffer of {buffer}: {}", shown.escape_ascii())
    }

    /// Holds the engine to the model on this case. Where it fails, the smallest on the way down that does is shown too.
    fn hold(self, texts: &dyn Texts) -> Result<(), String> {
        let Err(difference) = self.compare(texts) else { return Ok(()) };
        let least = descend(self, Case::smaller, |case| case.compare(texts).is_err());
        let least_difference = least.compare(texts).err().unwrap_or_default();
        Err(format!("{difference}\nsmaller: {least_difference}\n  {}", least.describe()))
    }
}

/// Makes one case of a seed and holds the engine to the model on it.
pub fn text_case(texts: &dyn Texts, seed: u64, case: u64, tally: &mut Tally) -> Result<(), String> {
    let made = generate::case(&mut Random::of_case(seed ^ 0x7e87, case));
    tally.note(&made);
    made.hold(texts).map_err(|difference| format!("seed {seed} case {case}: {difference}"))
}

/// Holds the engine to the model at every edge, with buffers that are too short, just long enough and longer: how many
/// cases that are.
pub fn edge_cases(texts: &dyn Texts) -> Result<usize, String> {
    let read = edges::texts().into_iter().map(|(text, _)| (Way::Read, text));
    let listed = edges::sheets().into_iter().map(|(sheet, _)| (Way::List, sheet));
    let mut cases = 0;
    for (way, input) in read.chain(listed) {
        let needs = way.whole(&input).len();
        for length in [0, needs.saturating_sub(1), needs, needs + 1, needs + 100] {
            let case = Case { way, input: input.clone(), buffer: vec![0xa5; length] };
            case.hold(texts).map_err(|difference| format!("edge: {difference}"))?;
            cases += 1;
        }
    }
    Ok(cases)
}
