//! What is measured gives the model's answers, and the workloads go on as long as they are measured.

use bench::text::{Fast, Straightforward};
use bench::workloads::{all, berth};
use bench::{fast, safe, tags};
use differential::backend::{Answer, Backend, Itself};
use differential::compare::compare_case;
use differential::tally::Tally;
use differential::text::{edge_cases, tally, text_case, Texts};
use model::engine::{Lent, ALLOWANCE, CLEARED_FOR_ALL};
use model::machine::Stop;
use model::rules::{Table, STANDARD};
use model::sample::Sample;
use model::sheet::{encode, Command, Command::*, ARGUMENTS, PAGES};
use model::{Atom, Label};

/// One of the two interpreters with the tag engine in Rust.
struct InRust {
    fast: bool,
}

impl Backend for InRust {
    fn plain(&self, sheet: &[u8], lent: &mut Lent, clearances: &[i64], fuel: u64) -> Answer {
        if self.fast {
            fast::plain(sheet, lent, clearances, fuel).into()
        } else {
            safe::plain(sheet, lent, clearances, fuel).into()
        }
    }

    fn tagged(&self, sheet: &[u8], table: &[u8], lent: &mut Lent, clearances: &[i64], fuel: u64) -> Answer {
        let sample = Table::parse(table).map_or(Sample::default(), |table| Sample::of(&table));
        let handler = sample.handler();
        let before = lent.handler.clone();
        if let Some(space) = lent.handler.get_mut(..2 * handler.count) {
            space.copy_from_slice(handler.words);
        }
        let answer = tags::tagged(sheet, table, handler.count, lent, clearances, fuel);
        if answer.is_err() {
            lent.handler = before;
        }
        answer.into()
    }

    fn handler_count(&self, table: &[u8]) -> u64 {
        Itself.handler_count(table)
    }

    fn page(&self, job: &[u8], buffer: &mut [u8]) -> (u64, u64) {
        Itself.page(job, buffer)
    }
}

#[test]
fn interpreters_agree_with_the_model() {
    for fast in [false, true] {
        let mut tally = Tally::default();
        for case in 0..20_000 {
            compare_case(&InRust { fast }, 3, case, &mut tally).unwrap();
        }
        for engine in [tally.plain, tally.tagged] {
            assert!(engine.stops.iter().all(|&count| count > 0), "{:?}", engine.stops);
        }
    }
}

/// Holds the interpreters to the model on one start, answers and all lent words: the answers of the plain and the tagged.
fn hold(sheet: &[u8], lent: &Lent, clearances: &[i64], fuel: u64, what: &str) -> [Answer; 2] {
    let run = |backend: &dyn Backend| {
        let (mut plain, mut tagged) = (lent.clone(), lent.clone());
        let answers = [
            backend.plain(sheet, &mut plain, clearances, fuel),
            backend.tagged(sheet, &STANDARD, &mut tagged, clearances, fuel),
        ];
        (answers, plain, tagged)
    };
    let model = run(&Itself);
    for fast in [false, true] {
        assert!(run(&InRust { fast }) == model, "{what}, fast: {fast}");
    }
    model.0
}

/// Every page there is and there is not; and each run of the output space in turn as the shortest.
#[test]
fn pages_agree_with_the_model() {
    let mut lent = Lent::roomy(&[], 3);
    lent.pages.fill(-7);
    for page in 0..=u8::MAX {
        let sheet = [encode(&[Push(7), Push(8), Output]), vec![12, page]].concat();
        let hold = |sheet: &[u8], lent: &Lent, what: &str| {
            hold(sheet, lent, &CLEARED_FOR_ALL, ALLOWANCE, &format!("page {page}, {what}"))
        };
        hold(&sheet, &lent, "whole");
        hold(&sheet[..sheet.len() - 1], &lent, "cut");
        for room in 0..3 {
            for run in 0..4 {
                let mut lent = lent.clone();
                let Lent { numbers, line_labels, kinds, pages, .. } = &mut lent;
                [numbers, line_labels, kinds, pages][run].truncate(room);
                hold(&sheet, &lent, &format!("run {run} of {room}"));
            }
        }
    }
}

/// Lines on each page, and the end line, of labels inside the page's clearance and not, by their number or by a branch
/// before them; with and without room for them. The allowance is spent at the end.
#[test]
fn clearances_agree_with_the_model() {
    const SETS: [Label; 5] = [0, 1, 2, 3, Label::MAX];
    for page in 0..PAGES {
        for (label, set) in SETS.into_iter().flat_map(|label| SETS.map(|set| (label, set))) {
            let mut clearances = CLEARED_FOR_ALL;
            clearances[usize::from(page)] = set.into();
            for (rest, its_page, lines) in [
                (&[OutputTo(page)][..], page, 2),
                (&[Output], 0, 2),
                (&[Bnz(1), Push(7), OutputTo(page)], page, 2),
                (&[Bnz(1)], 0, 1),
            ] {
                let commands = [&[Push(0), Load], rest].concat();
                for room in 0..3 {
                    let lent = Lent::roomy(&[Atom { number: 7, label }], room);
                    let what = format!("{rest:?} of {label:x}, page {page} cleared for {set:x}, room {room}");
                    let answers = hold(&encode(&commands), &lent, &clearances, commands.len() as u64, &what);
                    let stop = if its_page == page && label & !set != 0 {
                        Stop::NotCleared
                    } else if room < lines {
                        Stop::OutputFull
                    } else {
                        Stop::End
                    };
                    assert_eq!(answers.map(|answer| answer.words[2]), [stop as u64; 2], "{what}");
                }
            }
        }
    }
}

/// Words that are no clearances are refused, in their turn: after the cells' labels, before the rule memory and the
/// working space.
#[test]
fn clearance_words_agree_with_the_model() {
    let refused = |lent: &Lent, clearances: &[i64]| {
        let answers = hold(&encode(&[Add]), lent, clearances, 0, "clearances").map(|answer| answer.words);
        assert_eq!(answers[0], answers[1]);
        (answers[0][0], answers[0][1])
    };
    let mut lent = Lent::roomy(&[Atom { number: 7, label: 1 }], 1);
    lent.program.clear();
    lent.rule_memory.fill(-1);
    for page in 0..usize::from(PAGES) {
        for word in [-1, i64::from(Label::MAX) + 1, i64::MIN, i64::MAX] {
            let mut clearances = CLEARED_FOR_ALL;
            clearances[page..].fill(word);
            assert_eq!(refused(&lent, &clearances), (13, page as u64));
        }
    }
    for count in [0, 1, 15, 17, 32] {
        assert_eq!(refused(&lent, &vec![-1; count]), (13, 16));
    }
    lent.labels[0] = -1;
    assert_eq!(refused(&lent, &[]), (5, 0));
}

/// A CallN's operands that there are and that there are not, whole and cut.
#[test]
fn call_operands_agree_with_the_model() {
    let lent = Lent::roomy(&[], 1);
    let pairs =
        (0..=u8::MAX).flat_map(|byte| [[byte, 0], [byte, 1], [byte, 2], [0, byte], [15, byte], [16, byte]]);
    for operands in pairs {
        let sheet = [encode(&[Push(2)]), vec![13], operands.to_vec()].concat();
        for cut in 0..3 {
            let sheet = &sheet[..sheet.len() - cut];
            hold(sheet, &lent, &CLEARED_FOR_ALL, ALLOWANCE, &format!("{operands:?}, {cut} cut"));
        }
    }
}

/// Calls for so many arguments: with all of them, with one missing, with a frame in its place. Then both returns, at once
/// and with arguments dropped, to the command after the call, which drops them again; on a stack that the call finds full
/// and not, at a hidden place and not, by a hidden target and not.
#[test]
fn calls_agree_with_the_model() {
    let lent = Lent::roomy(&[Atom { number: 0, label: 1 }], 1);
    let mut stops = [0; 12];
    let mut hold = |commands: &[Command]| {
        for answer in hold(&encode(commands), &lent, &CLEARED_FOR_ALL, 300, &format!("{commands:?}")) {
            assert_eq!(answer.words[0], 0, "{commands:?}");
            stops[answer.words[2] as usize] += 1;
        }
    };
    let onward = |commands: &[Command]| Push(commands.len() as i64 + 2);
    for (arguments, results) in (0..=ARGUMENTS).flat_map(|arguments| [(arguments, 0), (arguments, 1)]) {
        let (call, count) = (CallN(arguments, results), usize::from(arguments));
        for missing in 0..=count {
            for due in [None, Some(0), Some(1)] {
                let mut commands = vec![];
                for argument in 1..=count {
                    match due {
                        _ if argument != missing => commands.push(Push(argument as i64)),
                        Some(due) => commands.extend([onward(&commands), CallN(0, due)]),
                        None => {}
                    }
                }
                commands.extend([onward(&commands), call]);
                hold(&commands);
            }
        }
        for dropped in [0, 1, count.saturating_sub(1), count] {
            for (below, back) in [0, 1, 255 - count].map(|below| [(below, Ret), (below, RetV)]).concat() {
                let mut commands = vec![Push(7); below];
                if dropped % 2 == 1 {
                    commands.extend([Push(0), Load, Bnz(1)]);
                }
                commands.extend(vec![Push(5); count]);
                if below == 1 {
                    commands.extend([Push(0), Load, Push(commands.len() as i64 + 5), Add, call]);
                } else {
                    commands.extend([onward(&commands), call]);
                }
                commands.extend(vec![Pop; dropped]);
                commands.push(back);
                hold(&commands);
            }
        }
    }
    for stop in [Stop::End, Stop::ValueMissing, Stop::FrameMissing, Stop::ResultsDiffer] {
        assert!(stops[stop as usize] > 0, "{stop:?}");
    }
}

#[test]
fn workloads_agree_with_the_model() {
    let table = Table::parse(&STANDARD).unwrap();
    for workload in all().into_iter().chain([berth()]) {
        let lent = workload.lent(Sample::of(&table).handler().words);
        hold(&workload.sheet, &lent, &workload.clearances, 100_003, workload.name);
    }
}

#[test]
fn texts_agree_with_the_model() {
    for texts in [&Straightforward as &dyn Texts, &Fast] {
        edge_cases(texts).unwrap();
        let mut tally = tally::Tally::default();
        for case in 0..60_000 {
            text_case(texts, 3, case, &mut tally).unwrap();
        }
        assert_eq!(tally.missing(), [""; 0]);
    }
}

/// A sum that grows would stop them, and so would a page that is not cleared for its lines.
#[test]
fn workloads_spend_their_allowance() {
    for workload in all() {
        let mut lent = workload.lent(&[]);
        let report = safe::plain(&workload.sheet, &mut lent, &workload.clearances, ALLOWANCE).unwrap();
        assert_eq!((report.stop, report.steps), (Stop::AllowanceSpent, ALLOWANCE), "{}", workload.name);
    }
}
