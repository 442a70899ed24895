//! What was reached of clearances: the stops of lines that are not cleared for their page, and refusal 13.

use crate::backend::{page_from, Answer};
use crate::generate::Start;
use model::engine::{clearances, Lent};
use model::rules::{Question, Table};
use model::sheet::{decode, Command, PAGES};
use model::{flows, Label};

/// What may be met of clearances on either engine. "Before" is where the other would apply too; at the end is with
/// allowance left unless it is spent.
const EITHER: [&str; 20] = [
    "line that just goes",
    "stop 10, Output",
    "stop 10, OutputTo",
    "stop 10, hidden place",
    "stop 10 before 8",
    "stop 10 at the end",
    "stop 10 at end before 8",
    "stop 10 at end, spent",
    "10 at end, spent, before 8",
    "refusal 13 at page 0",
    "refusal 13 at page 15",
    "refusal 13, two words",
    "refusal 13, fewer words",
    "refusal 13, more words",
    "refusal 13 by count first",
    "refusal of sheet before 13",
    "refusal 4 before 13",
    "refusal 5 before 13",
    "refusal 13 before 8",
    "refusal 13 before 9",
];

/// The same of the tag engine alone.
const TAGGED: [&str; 5] = [
    "stop 6 before 10",
    "stop 10 at a fault",
    "stop 10 at a match",
    "refusal 13 before 6",
    "refusal 13 before 7",
];

#[derive(Clone, Default)]
pub struct Clearances {
    either: [u64; EITHER.len()],
    tagged: [u64; TAGGED.len()],
    /// Stop 10 by the page of the line; on page 0 also at the end.
    pub pages: [u64; PAGES as usize],
}

fn add<const N: usize>(counts: &mut [u64; N], met: [bool; N]) {
    for (count, met) in counts.iter_mut().zip(met) {
        *count += u64::from(met);
    }
}

/// How many of the words are no set.
fn bad_words(words: &[i64]) -> usize {
    words.iter().filter(|&&word| Label::try_from(word).is_err()).count()
}

/// Whether a line that has owners stands on a page that is cleared for just these.
fn just_goes(start: &Start, lent: &Lent, lines: u64) -> bool {
    let mut written = lent.pages.iter().zip(&lent.line_labels).take(lines as usize);
    written.any(|(&page, &label)| label != 0 && start.clearances[page as usize] == label)
}

impl Clearances {
    /// Counts an answer to a start, which left the memory like this. Where it is refusal 13, `later` is what would be
    /// refused without it, or 0.
    pub fn note(&mut self, answer: &Answer, start: &Start, lent: &Lent, later: u64) {
        let mut met = [false; EITHER.len()];
        let [refusal, _, stop, steps, pc, label, _, lines, _, _] = answer.words;
        if refusal != 0 {
            met[9..].copy_from_slice(&refused(answer, start, later));
            return add(&mut self.either, met);
        }
        met[0] = just_goes(start, lent, lines);
        if stop == 10 {
            let commands = decode(&start.sheet).unwrap_or_default();
            let page = page_from(&commands, pc).expect("stop 10 is of a line");
            self.pages[usize::from(page)] += 1;
            let (full, spent) = (lines == lent.room() as u64, steps == start.fuel);
            match commands.get(pc as usize) {
                Some(command) => {
                    let by_output = *command == Command::Output;
                    met[1..5].copy_from_slice(&[by_output, !by_output, label != 0, full]);
                }
                None => met[5..9].copy_from_slice(&[!spent, !spent && full, spent, spent && full]),
            }
        }
        add(&mut self.either, met);
    }

    /// The same for what the tag engine alone can meet; `matched` is whether the command that was asked of last found
    /// its row there.
    pub fn note_tagged(
        &mut self,
        answer: &Answer,
        start: &Start,
        lent: &Lent,
        table: Option<&Table>,
        later: u64,
        matched: bool,
    ) {
        let [refusal, _, stop, _, pc, ..] = answer.words;
        let commands = decode(&start.sheet).unwrap_or_default();
        let asked = refusal == 0 && pc < commands.len() as u64;
        let stopped = |number| asked && stop == number;
        let denied = page_from(&commands, pc).filter(|_| stopped(6));
        let both = denied.zip(table).is_some_and(|(page, table)| {
            // At stop 6 the row has the question, and the table says what label the line would have.
            let label = Question::of_words(&lent.rule_memory[..5]).map(|question| table.result(&question));
            label.is_some_and(|label| !flows(label, start.clearances[usize::from(page)] as Label))
        });
        let met = [
            both,
            stopped(10) && !matched,
            stopped(10) && matched,
            refusal == 13 && later == 6,
            refusal == 13 && later == 7,
        ];
        add(&mut self.tagged, met);
    }

    pub fn either(&self) -> impl Iterator<Item = (&'static str, u64)> + '_ {
        EITHER.into_iter().zip(self.either)
    }

    pub fn tagged(&self) -> impl Iterator<Item = (&'static str, u64)> + '_ {
        TAGGED.into_iter().zip(self.tagged)
    }
}

/// What a refused start is of [`EITHER`]'s refusals.
fn refused(answer: &Answer, start: &Start, later: u64) -> [bool; 11] {
    let [refusal, place, ..] = answer.words;
    let words = &start.clearances;
    let count = words.len().cmp(&PAGES.into());
    let (is, bad) = (refusal == 13, bad_words(words));
    let before = |numbers: &[u64]| numbers.contains(&refusal) && clearances(words).is_err();
    [
        is && place == 0,
        is && place == 15,
        is && place < 16 && bad > 1,
        is && count.is_lt(),
        is && count.is_gt(),
        is && count.is_ne() && bad > 0,
        before(&[1, 2, 3, 12, 14]),
        before(&[4]),
        before(&[5]),
        is && later == 8,
        is && later == 9,
    ]
}
