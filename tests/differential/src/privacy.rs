//! Looks for a counterexample to demand 3: two runs of one sheet, each on either engine and with clearances of its own,
//! from cells that are alike for a set of owners, whose views for that set are not one the start of the other; and so
//! for the lines of each page. And for an end line that misleads: a view that has one must be whole, with the other view
//! as its start. And for a page that tells what it is closed to: a line that is not cleared for its page, or a page
//! that both runs clear for owners of the set only, and whose lines, seen by anyone, differ.

mod pairs;

pub use self::pairs::Pairs;
use crate::backend::{page_from, Backend};
use crate::generate::clearances::clearances;
use crate::generate::{cells, commands, fuel, label, number, rule_memory};
use crate::random::Random;
use model::engine::{judged, Lent, ALLOWANCE};
use model::machine::{Clearances, Kind, Stop};
use model::rules::{standard, Question, Table, STANDARD};
use model::sheet::{encode, Command, COMMANDS, PAGES};
use model::{flows, Atom, Label};

/// Cells that an observer of the set cannot tell from these: inside ones equal, outside ones any outside.
fn alike(random: &mut Random, cells: &[Atom], set: Label) -> Vec<Atom> {
    cells
        .iter()
        .map(|&cell| {
            if flows(cell.label, set) || random.percent(15) {
                return cell;
            }
            let mut other = label(random);
            if flows(other, set) || random.percent(60) {
                other = cell.label;
            }
            Atom { number: number(random), label: other }
        })
        .collect()
}

/// Clearances for a run; in many cases pages are closed to owners outside the set.
fn closed_to_others(random: &mut Random, cells: &[Atom], set: Label) -> Clearances {
    let labels: Vec<Label> = cells.iter().map(|cell| cell.label).collect();
    let sets = clearances(random, &labels);
    let chance = random.pick(&[0, 0, 60, 100]);
    sets.map(|owners| if random.percent(chance) { owners & set } else { owners })
}

/// Clearances for the other run: mostly the same, in some cases of one page or of all of them others.
fn other_clearances(random: &mut Random, clearances: &Clearances, cells: &[Atom], set: Label) -> Clearances {
    let mut others = *clearances;
    match random.weighted(&[70, 15, 15]) {
        0 => {}
        1 => others[random.below(PAGES.into())] = label(random),
        _ => others = closed_to_others(random, cells, set),
    }
    others
}

/// Page, kind, number and label.
type Words = [i64; 4];

struct Run {
    lines: Vec<Words>,
    /// The lines inside the set.
    view: Vec<Words>,
    clearances: Clearances,
    stop: u64,
    steps: u64,
    /// Where a page's clearance stopped the run: the page, and whether it was at the end.
    uncleared: Option<(u8, bool)>,
    /// The place's label is inside the set.
    cleared: bool,
    on_plain: bool,
    /// Values that were returned from a place outside the set to a frame inside it.
    hidden_returns: u64,
}

/// Those of one page.
fn of_page(lines: &[Words], page: u8) -> Vec<Words> {
    lines.iter().copied().filter(|&[on, ..]| on == page.into()).collect()
}

impl Run {
    fn is_at_end(&self) -> bool {
        self.stop == Stop::End as u64
    }

    /// Where in the view the first end line stands.
    fn end_line(&self) -> Option<usize> {
        self.view.iter().position(|&[_, kind, ..]| kind == Kind::End as i64)
    }

    /// Whether the page is cleared for owners of the set only.
    fn closes(&self, page: u8, set: Label) -> bool {
        flows(self.clearances[usize::from(page)], set)
    }

    /// Each line is cleared for its page.
    fn keeps_its_clearances(&self) -> bool {
        self.lines.iter().all(|&[page, _, _, label]| {
            let clearance = self.clearances.get(page as usize);
            clearance.is_some_and(|&owners| flows(label as Label, owners))
        })
    }

    fn has_end_line(&self) -> bool {
        self.end_line().is_some()
    }

    /// An end line stands last in the view where the run came to its end at a place inside the set, and nowhere else.
    fn tells_its_end(&self) -> bool {
        let last = self.view.len().saturating_sub(1);
        self.end_line() == (self.is_at_end() && self.cleared).then_some(last)
    }
}

fn run(
    backend: &dyn Backend,
    random: &mut Random,
    sheet: &[Command],
    cells: &[Atom],
    clearances: Clearances,
    set: Label,
) -> Run {
    let room = random.pick(&[0, 1, 3, 20, 60, 200]);
    let mut lent = Lent::roomy(cells, room);
    lent.program.truncate(2 * sheet.len());
    let fuel = match fuel(random) {
        accepted @ 0..=ALLOWANCE => accepted,
        beyond => beyond % 1000,
    };
    let bytes = encode(sheet);
    let words = clearances.map(i64::from);
    let hidden_returns = hidden_returns(&bytes, &lent, &words, fuel, set);
    let on_plain = random.percent(50);
    let answer = if on_plain {
        backend.plain(&bytes, &mut lent, &words, fuel)
    } else {
        let memory = rule_memory(random, &STANDARD, sheet.first().copied());
        let table = Table::parse(&STANDARD).expect("the standard table is a table");
        if table.accepts(&memory) {
            lent.rule_memory = memory;
        }
        lent.handler.truncate(2 * backend.handler_count(&STANDARD) as usize);
        backend.tagged(&bytes, &STANDARD, &mut lent, &words, fuel)
    };
    let [refusal, _, stop, steps, pc, place_label, _, lines, _, _] = answer.words;
    assert_eq!(refusal, 0, "the start breaks no limit");
    let lines: Vec<Words> = (0..lines as usize)
        .map(|index| [lent.pages[index], lent.kinds[index], lent.numbers[index], lent.line_labels[index]])
        .collect();
    let view = lines.iter().copied().filter(|&[.., mark]| flows(mark as Label, set)).collect();
    let page = page_from(sheet, pc).filter(|_| stop == Stop::NotCleared as u64);
    let uncleared = page.map(|page| (page, pc == sheet.len() as u64));
    Run {
        lines,
        view,
        clearances,
        stop,
        steps,
        uncleared,
        cleared: flows(place_label as Label, set),
        on_plain,
        hidden_returns,
    }
}

/// How many values the model returns in this run from a place outside the set to a frame inside it.
fn hidden_returns(sheet: &[u8], lent: &Lent, clearances: &[i64], fuel: u64, set: Label) -> u64 {
    if !sheet.contains(&0x0e) {
        return 0;
    }
    let mut returns = 0;
    let mut judge = |question: &Question| {
        let frame = question.inputs[1].filter(|_| question.code == 0x0e);
        let seen = frame.is_some_and(|frame| flows(frame, set));
        returns += u64::from(seen && !flows(question.place, set));
        standard(question)
    };
    let run = judged(sheet, &mut lent.clone(), clearances, fuel, &mut judge);
    run.expect("the start breaks no limit");
    returns
}

/// Whether of two lists one is the start of the other.
fn one_starts(one: &[Words], two: &[Words]) -> bool {
    one.starts_with(two) || two.starts_with(one)
}

/// Two runs of one sheet, from cells that are alike for the set.
struct Pair {
    one: Run,
    two: Run,
    set: Label,
    /// The cells are not the same.
    cells_differ: bool,
}

impl Pair {
    fn runs(&self) -> [&Run; 2] {
        [&self.one, &self.two]
    }

    /// The lines of one page in both views.
    fn page(&self, page: u8) -> [Vec<Words>; 2] {
        self.runs().map(|run| of_page(&run.view, page))
    }

    /// All lines of a page in both runs, if both clear it for owners of the set only.
    fn closed_page(&self, page: u8) -> Option<[Vec<Words>; 2]> {
        let closed = self.runs().into_iter().all(|run| run.closes(page, self.set));
        closed.then(|| self.runs().map(|run| of_page(&run.lines, page)))
    }

    /// What is wrong with the two. A page that is closed to others tells them apart, or a line is not cleared for its
    /// page; the views differ, on a page or in the order of all lines; one has an end line and the other goes on; or one
    /// has an end line where its run has none for this reader, or the other way round.
    fn wrong(&self) -> Option<&'static str> {
        let Pair { one, two, .. } = self;
        let passes = |whole: &Run, other: &Run| whole.has_end_line() && other.view.len() > whole.view.len();
        let differ = |[one, two]: [Vec<Words>; 2]| !one_starts(&one, &two);
        if (0..PAGES).filter_map(|page| self.closed_page(page)).any(differ) {
            Some("differ on a closed page")
        } else if !(one.keeps_its_clearances() && two.keeps_its_clearances()) {
            Some("have a line that is not cleared for its page")
        } else if (0..PAGES).map(|page| self.page(page)).any(differ) {
            Some("differ on a page")
        } else if !one_starts(&one.view, &two.view) {
            Some("differ")
        } else if passes(one, two) || passes(two, one) {
            Some("differ in what follows an end line")
        } else if !(one.tells_its_end() && two.tells_its_end()) {
            Some("do not tell their runs' ends")
        } else {
            None
        }
    }
}

/// Makes one pair of a seed and compares its views.
pub fn privacy_case(backend: &dyn Backend, seed: u64, case: u64, pairs: &mut Pairs) -> Result<(), String> {
    let mut random = Random::of_case(seed ^ 0x5eed, case);
    let set = if random.percent(40) { 0 } else { label(&mut random) };
    let cells = cells(&mut random);
    let mut sheet = commands(&mut random, cells.len());
    sheet.truncate(COMMANDS);
    let others = alike(&mut random, &cells, set);
    let clearances = closed_to_others(&mut random, &cells, set);
    let apart = other_clearances(&mut random, &clearances, &cells, set);
    let one = run(backend, &mut random, &sheet, &cells, clearances, set);
    let two = run(backend, &mut random, &sheet, &others, apart, set);
    let pair = Pair { one, two, set, cells_differ: cells != others };
    pairs.note(&pair);
    let Some(wrong) = pair.wrong() else {
        return Ok(());
    };
    let [one, two] = pair.runs();
    Err(format!(
        "seed {seed} case {case}: views for {set:08x} {wrong}: {:?} and {:?}\n  of lines {:?} and {:?}\n  sheet {sheet:?}\n  \
         cells {cells:?}\n  cells {others:?}\n  clearances {clearances:x?}\n  clearances {apart:x?}",
        one.view, two.view, one.lines, two.lines
    ))
}
