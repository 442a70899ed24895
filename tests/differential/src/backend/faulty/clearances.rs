//! The faults in what is made of clearances: in which lines go out, and in refusal 13.

use super::super::faults::Fault;
use super::{Answer, Faulty};
use model::engine::{clearances, CLEARED_FOR_ALL};
use model::machine::{Kind, Line, Pages, Stop};
use model::{flows, Label, Refusal};

/// What is known of the rule that was asked last.
#[derive(Clone, Copy, Default)]
pub struct Asked {
    /// The label of the first input, which is the number that a printing command drops.
    pub input: Label,
    /// The rule memory had the row.
    pub matched: bool,
}

impl Fault {
    /// Whether the fault lets this line out.
    fn clears(self, pages: &Pages, line: &Line, asked: Asked) -> bool {
        let own = pages.clearance(line.page);
        let is_end = line.kind == Kind::End;
        match self {
            Fault::ClearanceOfPageZero => flows(line.label, pages.clearance(0)),
            Fault::ClearanceBackwards => flows(own, line.label),
            Fault::ClearedWithoutPlace if !is_end => flows(asked.input, own),
            Fault::PageZeroUncleared if !is_end && line.page == 0 => true,
            Fault::MatchUncleared if !is_end && asked.matched => true,
            Fault::EndUncleared if is_end => true,
            Fault::EndClearedByLastPage if is_end => {
                let last = pages.lines.last().map_or(0, |line| line.page);
                flows(line.label, pages.clearance(last))
            }
            _ => flows(line.label, own),
        }
    }

    /// Puts a line out or stops it, with the fault.
    pub fn write(self, pages: &mut Pages, line: Line, asked: Asked) -> Result<(), Stop> {
        let full_first = match line.kind {
            Kind::Number => self == Fault::FullBeforeCleared,
            Kind::End => self == Fault::EndFullBeforeCleared,
        };
        if full_first && pages.is_full() {
            return Err(Stop::OutputFull);
        }
        if !self.clears(pages, &line, asked) {
            return if self == Fault::UnclearedLeftOut { Ok(()) } else { Err(Stop::NotCleared) };
        }
        if pages.is_full() {
            return Err(Stop::OutputFull);
        }
        pages.lines.push(line);
        Ok(())
    }

    /// The clearances that a run has in place of these.
    pub fn clearances(self, words: &[i64]) -> Vec<i64> {
        let mut words = words.to_vec();
        match self {
            Fault::ClearanceAbove => replace(&mut words, 1 << 32),
            Fault::ClearanceBelow => replace(&mut words, -1),
            Fault::LastClearanceUnchecked if words.len() == 16 => words[15] = words[15] as Label as i64,
            Fault::FifteenClearances if words.len() == 15 => words.push(0),
            Fault::ManyClearances => words.truncate(16),
            _ => {}
        }
        words
    }

    /// Refusal 13 with the fault in its place.
    fn placed(self, place: u64, words: &[i64]) -> Refusal {
        let at_fault = pages_at_fault(words);
        let other = match (self, place) {
            (Fault::ClearancePlaceLost, _) => Some(0),
            (Fault::ClearancePlaceLast, 0..16) => at_fault.last().copied(),
            (Fault::ClearancesCountedLast, 16) => at_fault.first().copied(),
            (Fault::ClearancesCounted, 16) => Some(words.len()),
            _ => None,
        };
        Refusal::new(13, other.unwrap_or(place as usize))
    }
}

/// Makes a word the set that its lower half is.
fn replace(words: &mut [i64], word: i64) {
    for other in words.iter_mut().filter(|other| **other == word) {
        *other = word as Label as i64;
    }
}

impl Faulty {
    /// An answer with the fault in when and with what place refusal 13 is given; `run` is a run under other clearances
    /// than these.
    pub fn refused(&self, answer: Answer, words: &[i64], run: impl FnOnce(&[i64]) -> Answer) -> Answer {
        let [number, place, ..] = answer.words;
        let thirteen = clearances(words).err();
        let before: &[u64] = match self.0 {
            Fault::ClearancesFirst => &[1, 2, 3, 12, 14, 4, 5],
            Fault::ClearancesBeforeLabels => &[5],
            _ => &[],
        };
        if let Some(thirteen) = thirteen.filter(|_| before.contains(&number)) {
            return Err(thirteen).into();
        }
        if number != 13 {
            return answer;
        }
        let after: &[u64] = match self.0 {
            Fault::ClearancesAfterTable => &[6],
            Fault::ClearancesLast => &[6, 7, 8, 9],
            _ => return Err(self.0.placed(place, words)).into(),
        };
        let later = run(&CLEARED_FOR_ALL);
        if after.contains(&later.words[0]) {
            later
        } else {
            answer
        }
    }
}

/// The pages whose words are no sets, whatever the number of words.
fn pages_at_fault(words: &[i64]) -> Vec<usize> {
    (0..words.len()).filter(|&page| Label::try_from(words[page]).is_err()).collect()
}
