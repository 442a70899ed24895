//! Document 01's readings, starred and unstarred, as document 02's U1, U2, U4 and U5 leave them, and these changes'
//! own cases, on both engines. `calls.rs` has those of U6.

mod common;

use common::*;
use model::engine::{plain, tagged, Handler, Lent, Report, CLEARED_FOR_ALL};
use model::machine::{Line, Stop};
use model::page::{page, LINES};
use model::rules::{standard, LabelTree, Question, Table, YesNoTree, STANDARD};
use model::sample::Sample;
use model::sheet::{decode, encode, Command, Command::*};
use model::{flows, Atom, Label, Refusal};

fn r1() -> Vec<Command> {
    vec![Push(1), Load, Push(0), Load, Add, Output, Push(0), Load, Output]
}

#[test]
fn reading_1() {
    let run = run(&r1());
    assert_eq!(run.lines, [line(12, 1), line(7, 0), end(0)]);
    assert_eq!((run.report.stop, run.report.steps, run.report.lines), (Stop::End, 9, 3));
    assert_eq!(page(&job(1, &r1())), "0 12 00000001\n0 7 00000000\n0 end 00000000\n");
    assert_eq!(page(&job(0, &r1())), "0 7 00000000\n0 end 00000000\n");
}

#[test]
fn readings_2_and_3() {
    let sheet = [Push(1), Load, Bnz(3), Push(0), Output, Push(9), Output];
    let taken = run(&sheet);
    assert_eq!((taken.lines, taken.report.steps), (vec![line(9, 1), end(1)], 5));
    let cells = [CELLS[0], Atom { number: 0, label: 1 }];
    let fallen = run_with(&sheet, &cells, 1000, 100).unwrap();
    assert_eq!((fallen.lines, fallen.report.steps), (vec![line(0, 1), line(9, 1), end(1)], 7));
    // The end line is for those whom the branch is for.
    assert_eq!(page(&job(1, &sheet)), "0 9 00000001\n0 end 00000001\n");
    assert_eq!(page(&job(0, &sheet)), "");
}

#[test]
fn reading_4() {
    let run = run(&[Push(1), Load, Bnz(1), Push(7), Push(0), Store]);
    assert_eq!((run.report.stop, run.report.steps, run.lines), (Stop::NotAllowed, 5, vec![]));
    assert_eq!(run.lent.rule_memory, [7, 1, 0, 0, 0, -1, -1]);
}

#[test]
fn reading_5() {
    let run = run(&[Push(1), Load, Push(8), Call, Push(8), Output, Push(10), Jump, Bnz(1), Ret]);
    assert_eq!((run.lines, run.report.stop, run.report.steps), (vec![line(8, 0), end(0)], Stop::End, 10));
}

#[test]
fn reading_6() {
    let run = run(&[Push(i64::MAX), Push(1), Add, Output]);
    let report = run.report;
    assert_eq!((report.stop, report.steps, report.place, report.depth), (Stop::Overflow, 2, 2, 2));
    assert_eq!((run.lines, &run.lent.stack[..6]), (vec![], &[0, i64::MAX, 0, 0, 1, 0][..]));
    // The rule was asked: a Push and the Add were faults, and the Add's row is there, as where the sum fits.
    let fits = run_with(&[Push(i64::MAX), Push(0), Add], &CELLS, 3, 1).unwrap();
    assert_eq!((report.faults, fits.report.faults), (2, 2));
    assert_eq!(report.kernel_steps, fits.report.kernel_steps);
    assert_eq!(run.lent.rule_memory, [1, 0, 0, 0, -1, 0, 0]);
    assert_eq!(run.lent.rule_memory, fits.lent.rule_memory);
}

#[test]
fn sums_at_the_limits() {
    const LEAST: i64 = i64::MIN;
    const MOST: i64 = i64::MAX;
    // Add is top + next, Sub top - next.
    for (command, top, next, number) in [
        (Add, MOST, 0, Some(MOST)),
        (Add, MOST, 1, None),
        (Add, 1, MOST, None),
        (Add, LEAST, 0, Some(LEAST)),
        (Add, LEAST, -1, None),
        (Add, -1, LEAST, None),
        (Add, LEAST, MOST, Some(-1)),
        (Sub, LEAST, 0, Some(LEAST)),
        (Sub, LEAST, 1, None),
        (Sub, 1, LEAST, None),
        (Sub, 0, LEAST, None),
        (Sub, -1, LEAST, Some(MOST)),
        (Sub, MOST, -1, None),
        (Sub, -1, MOST, Some(LEAST)),
        (Sub, -2, MOST, None),
    ] {
        let run = run(&[Push(next), Push(top), command, Output]);
        let outcome = (run.report.stop, run.report.steps, run.report.depth, run.lines);
        assert_eq!(
            outcome,
            match number {
                Some(number) => (Stop::End, 4, 0, vec![line(number, 0), end(0)]),
                None => (Stop::Overflow, 2, 2, vec![]),
            },
            "{command:?} of {top} and {next}"
        );
    }
}

#[test]
fn an_overflow_changes_only_what_the_rule_memory_keeps() {
    // A cell and a line are written, then a call branches on a secret, and the sum is made at a hidden place.
    let before = [Push(9), Push(0), Store, Push(3), Output, Push(1), Load, Push(9), Call];
    let sheet = [&before[..], &[Bnz(1), Push(i64::MIN), Push(-1), Add, Ret]].concat();
    let spent = run_with(&sheet, &CELLS, 12, 5).unwrap();
    let cut = run_with(&sheet, &CELLS, 13, 5).unwrap();
    let Report { faults, kernel_steps, .. } = cut.report;
    assert_eq!((spent.report.stop, spent.report.steps), (Stop::AllowanceSpent, 12));
    assert_eq!(cut.report, Report { stop: Stop::Overflow, faults, kernel_steps, ..spent.report });
    assert_eq!((cut.report.place_label, cut.report.depth, cut.report.lines), (1, 3, 1));
    assert_eq!(faults, spent.report.faults + 1);
    assert!(kernel_steps > spent.report.kernel_steps);
    let rule_memory = vec![1, 1, 0, 0, -1, 1, 0];
    assert_eq!(cut.lent, Lent { rule_memory, ..spent.lent });
    // Where the row is there already, the overflow is no fault.
    let matched = run(&[Push(i64::MAX), Push(0), Push(1), Add, Add]).report;
    assert_eq!((matched.stop, matched.steps, matched.faults), (Stop::Overflow, 4, 2));
}

#[test]
fn a_denied_sum_is_stop_6_whatever_it_is() {
    // Add only of a public number on top.
    let table = [&[0x16, 0x12, 0x10], &STANDARD[1..]].concat();
    let sample = Sample::of(&Table::parse(&table).unwrap());
    let run = |top| {
        let mut lent = Lent::roomy(&[Atom { number: i64::MAX, label: 0 }, Atom { number: 1, label: 1 }], 5);
        let sheet = encode(&[Push(1 - top), Load, Push(top), Load, Add]);
        let run = tagged(&sheet, &table, sample.handler(), &mut lent, &CLEARED_FOR_ALL, 10);
        assert_eq!(run.wrong, None);
        let report = run.answer.unwrap();
        (report.stop, report.steps, lent.rule_memory)
    };
    assert_eq!(run(1), (Stop::NotAllowed, 4, vec![1, 0, 1, 0, -1, -1, -1]));
    assert_eq!(run(0), (Stop::Overflow, 4, vec![1, 0, 0, 1, -1, 0, 1]));
}

#[test]
fn readings_7_to_10() {
    assert_eq!(stop_and_lines(&[], 0), (Stop::End, vec![end(0)]));
    assert_eq!(stop_and_lines(&[Push(1)], 0), (Stop::AllowanceSpent, vec![]));
    assert_eq!(stop_and_lines(&[Ret], 10), (Stop::FrameMissing, vec![]));
    assert_eq!(stop_and_lines(&[Push(2), Load], 10), (Stop::AddressOutside, vec![]));
}

#[test]
fn the_end_line_is_no_step_and_asks_no_rule() {
    let empty = run_with(&[], &CELLS, 0, 1).unwrap();
    let counts =
        |report: Report| (report.stop, report.steps, report.lines, report.faults, report.kernel_steps);
    assert_eq!(counts(empty.report), (Stop::End, 0, 1, 0, 0));
    assert_eq!(empty.lent.rule_memory, [0; 7]);
    let push = run_with(&[Push(1)], &CELLS, 1, 1).unwrap();
    assert_eq!((push.report.stop, push.report.steps, push.report.faults), (Stop::End, 1, 1));
    assert_eq!((push.lines, push.lent.rule_memory), (vec![end(0)], vec![5, 0, -1, -1, -1, 0, 0]));
}

#[test]
fn no_space_for_the_end_line() {
    // With allowance left and with allowance spent; one step before the end it is the allowance that stops the run.
    for fuel in [10, 2] {
        let full = run_with(&[Push(4), Output], &CELLS, fuel, 1).unwrap();
        let report = full.report;
        assert_eq!((report.stop, report.steps, report.place, report.depth), (Stop::OutputFull, 2, 2, 0));
        assert_eq!((full.lines, report.faults), (vec![line(4, 0)], 2));
    }
    assert_eq!(run_with(&[Push(4), Output], &CELLS, 1, 1).unwrap().report.stop, Stop::AllowanceSpent);
    assert_eq!(run_with(&[Push(4), Output], &CELLS, 2, 2).unwrap().lines, [line(4, 0), end(0)]);
    let empty = run_with(&[], &CELLS, 0, 0).unwrap().report;
    assert_eq!((empty.stop, empty.steps, empty.place, empty.lines), (Stop::OutputFull, 0, 0, 0));
}

#[test]
fn the_shortest_of_four_runs_sets_the_room() {
    for lengths in [[2, 3, 4, 5], [3, 4, 2, 9], [4, 2, 3, 3], [3, 9, 4, 2], [2, 2, 9, 2]] {
        let [numbers, line_labels, kinds, pages] = lengths.map(|length| vec![7; length]);
        let mut lent = Lent { numbers, line_labels, kinds, pages, ..Lent::roomy(&CELLS, 0) };
        let sheet = encode(&[Push(4), OutputTo(3)]);
        let report = plain(&sheet, &mut lent, &CLEARED_FOR_ALL, 10).unwrap();
        assert_eq!((report.stop, report.lines), (Stop::End, 2));
        let laid = |words: [i64; 2], length| [&words[..], &vec![7; length - 2]].concat();
        let [numbers, line_labels, kinds, pages] = lengths;
        assert_eq!(lent.numbers, laid([4, 0], numbers));
        assert_eq!(lent.line_labels, laid([0, 0], line_labels));
        assert_eq!(lent.kinds, laid([0, 1], kinds));
        assert_eq!(lent.pages, laid([3, 0], pages));
        let before = lent.clone();
        assert!(plain(&sheet, &mut lent, &CLEARED_FOR_ALL, 1_000_001).is_err());
        assert_eq!(lent, before);
        let report = plain(&sheet.repeat(2), &mut lent, &CLEARED_FOR_ALL, 10).unwrap();
        assert_eq!((report.stop, report.place, report.lines), (Stop::OutputFull, 4, 2));
        assert_eq!(lent.kinds, laid([0, 0], kinds));
        assert_eq!(lent.pages, laid([3, 3], pages));
    }
}

#[test]
fn pages_that_are_cut_and_whole() {
    let printing = |count: usize| page(&job(0, &[Push(1), Output].repeat(count)));
    let lines = |count| "0 1 00000000\n".repeat(count);
    assert_eq!(printing(LINES - 1), lines(LINES - 1) + "0 end 00000000\n");
    assert_eq!(printing(LINES), lines(LINES));
    // On whichever page a line stands, it takes a line of space.
    let printing = |count: usize| page(&job(0, &[Push(1), OutputTo(15)].repeat(count)));
    let lines = |count| "15 1 00000000\n".repeat(count);
    assert_eq!(printing(LINES - 1), lines(LINES - 1) + "0 end 00000000\n");
    assert_eq!(printing(LINES), lines(LINES));
    // The longest page.
    let cell = [&[0x40][..], &i64::MIN.to_le_bytes(), &[0xff; 4], &[0x42], &[0xff; 4]].concat();
    let sheet = encode(&[Push(0), Load, OutputTo(15)]).repeat(LINES);
    let longest = page(&[&cell[..], &[0x43], &sheet].concat());
    assert_eq!(longest, "15 -9223372036854775808 ffffffff\n".repeat(LINES));
    assert_eq!(longest.len(), 33_792);
    // Cut by an overflow after a line.
    let sheet = [Push(4), Output, Push(i64::MAX), Push(1), Add, Output];
    assert_eq!(page(&job(0, &sheet)), "0 4 00000000\n");
}

#[test]
fn pages_of_lines() {
    let sheet = [Push(3), OutputTo(15), Push(4), Output, Push(5), OutputTo(0), Push(6), OutputTo(1)];
    let run = run(&sheet);
    assert_eq!(run.lines, [line_on(15, 3, 0), line(4, 0), line(5, 0), line_on(1, 6, 0), end(0)]);
    assert_eq!((run.report.stop, run.report.steps, run.report.depth), (Stop::End, 8, 0));
    // The page is the operand word; an Output's is 0.
    assert_eq!(run.lent.program[2..4], [12, 15]);
    assert_eq!(run.lent.program[6..8], [4, 0]);
    let printed = "15 3 00000000\n0 4 00000000\n0 5 00000000\n1 6 00000000\n0 end 00000000\n";
    assert_eq!(page(&job(0, &sheet)), printed);
    // The end line is on page 0, whatever the last line's is.
    let all: Vec<Command> = (0..16).flat_map(|page| [Push(7), OutputTo(page)]).collect();
    let lines: Vec<Line> = (0..16).map(|page| line_on(page, 7, 0)).chain([end(0)]).collect();
    assert_eq!(self::run(&all).lines, lines);
}

#[test]
fn a_line_is_labelled_alike_on_every_page() {
    // At a public place and, after a branch on owner 0's number, at a hidden one.
    let sheet = |print| [Push(1), Load, print, Push(3), print, Push(1), Load, Bnz(1), Push(9), print];
    for to in 0..16 {
        let lines = [line_on(to, 5, 1), line_on(to, 3, 0), line_on(to, 9, 1), end(1)];
        assert_eq!(run(&sheet(OutputTo(to))).lines, lines);
        let public = page(&job(0, &sheet(OutputTo(to))));
        assert_eq!(public, format!("{to} 3 00000000\n"));
    }
    assert_eq!(run(&sheet(Output)).lines, [line(5, 1), line(3, 0), line(9, 1), end(1)]);
}

#[test]
fn stops_at_output_to() {
    assert_eq!(stop_and_lines(&[OutputTo(1)], 9), (Stop::ValueMissing, vec![]));
    assert_eq!(stop_and_lines(&[Push(1), Push(3), Call, Pop, OutputTo(1)], 9), (Stop::ValueMissing, vec![]));
    let full = run_with(&[Push(1), OutputTo(2), Push(3), OutputTo(4)], &CELLS, 9, 1).unwrap();
    let report = full.report;
    assert_eq!((report.stop, report.steps, report.place, report.depth), (Stop::OutputFull, 3, 3, 1));
    assert_eq!(full.lines, [line_on(2, 1, 0)]);
    // The rule was asked before the room.
    assert_eq!(full.lent.rule_memory, [12, 0, 0, -1, -1, 0, 0]);
}

#[test]
fn output_to_has_a_row_of_its_own() {
    let twice = |one, two| {
        let run = run(&[Push(1), Push(2), Push(3), Pop, one, two]);
        (run.report.faults, run.lent.rule_memory)
    };
    // Faults of the first Push and of Pop; then a print of the same page, of another page, and the other print.
    assert_eq!(twice(OutputTo(3), OutputTo(3)), (3, vec![12, 0, 0, -1, -1, 0, 0]));
    assert_eq!(twice(OutputTo(3), OutputTo(4)), (3, vec![12, 0, 0, -1, -1, 0, 0]));
    assert_eq!(twice(Output, Output), (3, vec![4, 0, 0, -1, -1, 0, 0]));
    assert_eq!(twice(Output, OutputTo(0)), (4, vec![12, 0, 0, -1, -1, 0, 0]));
    assert_eq!(twice(OutputTo(0), Output), (4, vec![4, 0, 0, -1, -1, 0, 0]));
    for code in [4, 12] {
        assert!(start_with_rule_memory([code, 1, 2, -1, -1, 1, 3]).is_ok());
        for wrong in [[code, 1, 2, -1, -1, 1, 2], [code, 1, 2, 0, -1, 1, 3], [code, 1, -1, -1, -1, 1, 1]] {
            assert_eq!(start_with_rule_memory(wrong), Err(Refusal::new(7, 0)));
        }
    }
    for code in [15, 16, 268, -4] {
        assert_eq!(start_with_rule_memory([code, 1, 2, -1, -1, 1, 3]), Err(Refusal::new(7, 0)));
    }
}

/// A run on the tag engine under rules that allow lines of public numbers only.
fn run_public(sheet: &[Command], clearances: &[i64]) -> Run {
    let mut table = Table::parse(&STANDARD).unwrap();
    table.rules[3].allowed = YesNoTree::Flows(LabelTree::Input(1), LabelTree::Empty);
    let sample = Sample::of(&table);
    let mut lent = Lent::roomy(&CELLS, 5);
    let run = tagged(&encode(sheet), &table.bytes(), sample.handler(), &mut lent, clearances, 10);
    assert_eq!(run.wrong, None);
    let report = run.answer.unwrap();
    Run { report, lines: lent.lines(&report), lent }
}

#[test]
fn output_to_is_under_outputs_rule() {
    let run = |cell, print| {
        let run = run_public(&[Push(cell), Load, print], &CLEARED_FOR_ALL);
        (run.report.stop, run.lines, run.lent.rule_memory)
    };
    assert_eq!(run(0, Output), (Stop::End, vec![line(7, 0), end(0)], vec![4, 0, 0, -1, -1, 0, 0]));
    assert_eq!(
        run(0, OutputTo(9)),
        (Stop::End, vec![line_on(9, 7, 0), end(0)], vec![12, 0, 0, -1, -1, 0, 0])
    );
    assert_eq!(run(1, Output), (Stop::NotAllowed, vec![], vec![4, 0, 1, -1, -1, -1, -1]));
    assert_eq!(run(1, OutputTo(9)), (Stop::NotAllowed, vec![], vec![12, 0, 1, -1, -1, -1, -1]));
    // The table has no rule for 0c of its own.
    let longer = [&STANDARD[..], &STANDARD[13..18]].concat();
    assert_eq!(Table::parse(&longer).err(), Some(Refusal::new(6, 60)));
}

/// Every page for all owners, but this one for these.
fn one_closed(page: u8, owners: Label) -> [i64; 16] {
    let mut clearances = CLEARED_FOR_ALL;
    clearances[usize::from(page)] = owners.into();
    clearances
}

/// Every page for no owner, but this one for these.
fn others_closed(page: u8, owners: Label) -> [i64; 16] {
    let mut clearances = [0; 16];
    clearances[usize::from(page)] = owners.into();
    clearances
}

/// R1's cells, and one whose number is 4, with another label.
fn and_cell(label: Label) -> [Atom; 3] {
    [CELLS[0], CELLS[1], Atom { number: 4, label }]
}

#[test]
fn a_line_goes_out_where_its_page_is_cleared_for_it() {
    const ALL: Label = Label::MAX;
    for (label, clearance, goes) in [
        (0, 0, true),
        (0, ALL, true),
        (0b101, 0b101, true),
        (0b101, 0b111, true),
        (0b101, 0b100, false),
        (0b101, 0b001, false),
        (0b101, 0b1010, false),
        (0b101, 0, false),
        (0b101, !0b100, false),
        (1, 1, true),
        (1, ALL - 1, false),
        (1 << 31, 1 << 31, true),
        (1 << 31, ALL >> 1, false),
        (ALL, ALL, true),
        (ALL, ALL - 1, false),
        (ALL, ALL >> 1, false),
    ] {
        for to in 0..16 {
            let run = |print, clearances: &[i64]| {
                let run = run_cleared(&[Push(2), Load, print], &and_cell(label), clearances, 9, 9).unwrap();
                (run.report.stop, run.lines)
            };
            // No other page's clearance matters, whichever way. The end line is public, and goes.
            let expected = match goes {
                true => (Stop::End, vec![line_on(to, 4, label), end(0)]),
                false => (Stop::NotCleared, vec![]),
            };
            assert_eq!(run(OutputTo(to), &one_closed(to, clearance)), expected, "{label:x} to {clearance:x}");
            assert_eq!(run(OutputTo(to), &others_closed(to, clearance)), expected);
            if to == 0 {
                assert_eq!(run(Output, &one_closed(0, clearance)), expected);
                assert_eq!(run(Output, &others_closed(0, clearance)), expected);
            }
        }
    }
}

#[test]
fn a_line_that_is_not_cleared_changes_only_what_the_rule_memory_keeps() {
    // A cell and a line are written, then a call branches on a secret and prints, which makes the line a secret too.
    let before = [Push(9), Push(0), Store, Push(3), Output, Push(1), Load, Push(9), Call];
    for (print, code, to) in [(Output, 4, 0), (OutputTo(0), 12, 0), (OutputTo(15), 12, 15)] {
        let sheet = [&before[..], &[Bnz(1), Push(6), print, Ret]].concat();
        let run = |fuel| run_cleared(&sheet, &CELLS, &one_closed(to, 0b110), fuel, 5).unwrap();
        let (spent, cut) = (run(11), run(12));
        let Report { faults, kernel_steps, .. } = cut.report;
        assert_eq!((spent.report.stop, spent.report.steps), (Stop::AllowanceSpent, 11));
        assert_eq!(cut.report, Report { stop: Stop::NotCleared, faults, kernel_steps, ..spent.report });
        assert_eq!((cut.report.place_label, cut.report.depth, cut.report.lines), (1, 2, 1));
        // The rule was asked: that is a fault, and its row is there.
        assert_eq!(faults, spent.report.faults + 1);
        assert!(kernel_steps > spent.report.kernel_steps);
        assert_eq!(cut.lent, Lent { rule_memory: vec![code, 1, 0, -1, -1, 1, 1], ..spent.lent });
        let cleared = run_with(&sheet, &CELLS, 12, 5).unwrap();
        assert_eq!(cleared.lent.rule_memory, cut.lent.rule_memory);
        assert_eq!((cleared.report.faults, cleared.report.kernel_steps), (faults, kernel_steps));
    }
    // Where the row is there already, it is no fault.
    let prints = [Push(1), Load, Push(1), Load, OutputTo(3), OutputTo(2)];
    let matched = run_cleared(&prints, &CELLS, &one_closed(2, 0), 9, 9).unwrap();
    let first = run_with(&prints, &CELLS, 5, 9).unwrap();
    assert_eq!((matched.report.stop, matched.report.steps, matched.report.depth), (Stop::NotCleared, 5, 1));
    assert_eq!(matched.report.faults, first.report.faults);
    assert_eq!(matched.report.kernel_steps, first.report.kernel_steps);
    assert_eq!(matched.lent.rule_memory, [12, 0, 1, -1, -1, 0, 1]);
}

#[test]
fn a_run_does_not_go_on_without_a_line() {
    // The public line after a secret that page 3 is closed to.
    let sheet = [Push(0), Load, OutputTo(3), Push(1), Load, OutputTo(3), Push(0), Load, OutputTo(3)];
    let run = |owners| {
        let run = run_cleared(&sheet, &CELLS, &one_closed(3, owners), 99, 9).unwrap();
        (run.report.stop, run.report.place, run.lines)
    };
    assert_eq!(run(0b10), (Stop::NotCleared, 5, vec![line_on(3, 7, 0)]));
    let lines = [line_on(3, 7, 0), line_on(3, 5, 1), line_on(3, 7, 0), end(0)];
    assert_eq!(run(0b01), (Stop::End, 9, lines.to_vec()));
}

#[test]
fn stops_before_and_after_10() {
    let stop = |sheet: &[Command], clearances: &[i64], fuel, room| {
        let run = run_cleared(sheet, &CELLS, clearances, fuel, room).unwrap();
        (run.report.stop as u8, run.report.steps, run.report.lines)
    };
    for (print, to) in [(Output, 0), (OutputTo(0), 0), (OutputTo(1), 1), (OutputTo(15), 15)] {
        let secret = [Push(1), Load, print];
        assert_eq!(stop(&secret, &one_closed(to, 0), 3, 1), (10, 2, 0));
        // The allowance, a value that is missing, and what is not allowed come before it.
        assert_eq!(stop(&secret, &one_closed(to, 0), 2, 1), (1, 2, 0));
        assert_eq!(stop(&[print], &[0; 16], 3, 1), (3, 0, 0));
        let hidden = [Push(1), Load, Bnz(1), print];
        assert_eq!(stop(&hidden, &[0; 16], 9, 0), (3, 3, 0));
        assert_eq!(stop(&[Push(1), Load, Push(4), Call, Pop, print], &[0; 16], 9, 0), (3, 5, 0));
        let denied = run_public(&secret, &one_closed(to, 0));
        assert_eq!((denied.report.stop, denied.lines), (Stop::NotAllowed, vec![]));
        assert_eq!(denied.lent.rule_memory, [print.code().into(), 0, 1, -1, -1, -1, -1]);
        // Room comes after it.
        assert_eq!(stop(&secret, &one_closed(to, 0), 3, 0), (10, 2, 0));
        assert_eq!(stop(&secret, &one_closed(to, 1), 3, 0), (8, 2, 0));
        let second = [Push(2), print, Push(1), Load, print];
        assert_eq!(stop(&second, &one_closed(to, 0), 9, 1), (10, 4, 1));
        assert_eq!(stop(&second, &one_closed(to, 1), 9, 1), (8, 4, 1));
    }
}

#[test]
fn the_end_line_needs_page_0() {
    // The last lines are on page 9; the place at the end is hidden.
    let sheet = [Push(3), OutputTo(9), Push(1), Load, Bnz(1)];
    let run = |clearances: &[i64], fuel, room| run_cleared(&sheet, &CELLS, clearances, fuel, room).unwrap();
    let whole = run(&CLEARED_FOR_ALL, 99, 9);
    assert_eq!((whole.report.stop, &whole.lines[..]), (Stop::End, &[line_on(9, 3, 0), end(1)][..]));
    // It is tested first: before the room, and before the allowance.
    for (fuel, room) in [(99, 9), (99, 1), (5, 9), (5, 1)] {
        for owners in [0, 0b10, !1] {
            let cut = run(&one_closed(0, owners), fuel, room);
            let report = Report { stop: Stop::NotCleared, lines: 1, ..whole.report };
            assert_eq!((cut.report, &cut.lines[..]), (report, &[line_on(9, 3, 0)][..]));
            assert_eq!((report.steps, report.place, report.place_label), (5, 5, 1));
            let first = |word| [&[word][..], &vec![0; room - 1]].concat();
            let (numbers, pages) = (first(3), first(9));
            let (line_labels, kinds) = (first(0), first(0));
            assert_eq!(cut.lent, Lent { numbers, line_labels, kinds, pages, ..whole.lent.clone() });
        }
        // Of all pages it is page 0 that matters, and neither the last nor the one last used.
        let stop = if room == 1 { Stop::OutputFull } else { Stop::End };
        assert_eq!(run(&others_closed(0, 1), fuel, room).report.stop, stop);
        assert_eq!(run(&others_closed(9, 1), fuel, room).report.stop, Stop::NotCleared);
    }
    // One step before the end it is the allowance.
    assert_eq!(run(&one_closed(0, 0), 4, 1).report.stop, Stop::AllowanceSpent);
    // A public end needs no owner.
    let public = run_cleared(&[], &CELLS, &[0; 16], 0, 1).unwrap();
    assert_eq!((public.report.stop, public.lines), (Stop::End, vec![end(0)]));
}

/// What plain and tag engine refuse, which must leave everything as it came.
fn refusals(sheet: &[u8], table: &[u8], lent: &Lent, clearances: &[i64], fuel: u64) -> [Option<Refusal>; 2] {
    let sample = Sample::of(&Table::parse(&STANDARD).unwrap());
    let (mut by_plain, mut by_tagged) = (lent.clone(), lent.clone());
    let plain = plain(sheet, &mut by_plain, clearances, fuel).err();
    let tagged = tagged(sheet, table, sample.handler(), &mut by_tagged, clearances, fuel).answer.err();
    assert!(plain.is_none() || by_plain == *lent);
    assert!(tagged.is_none() || by_tagged == *lent);
    [plain, tagged]
}

#[test]
fn clearances_refused() {
    const ALL: i64 = u32::MAX as i64;
    let refused = |clearances: &[i64]| {
        let [plain, tagged] = refusals(&[], &STANDARD, &Lent::roomy(&CELLS, 1), clearances, 0);
        assert_eq!(plain, tagged);
        plain
    };
    let at = |place| Some(Refusal::new(13, place));
    assert_eq!((refused(&[0; 16]), refused(&[ALL; 16])), (None, None));
    for page in 0..16 {
        for word in [ALL + 1, ALL + 2, -1, -ALL, i64::MIN, i64::MAX] {
            let mut clearances = [ALL; 16];
            clearances[page] = word;
            assert_eq!(refused(&clearances), at(page), "{word}");
            // The first of several.
            clearances[page + 1..].fill(-7);
            assert_eq!(refused(&clearances), at(page), "{word}");
        }
        for word in [0, 1, ALL - 1, ALL] {
            let mut clearances = [0; 16];
            clearances[page] = word;
            assert_eq!(refused(&clearances), None);
        }
    }
    // Another number of words comes before what they are.
    for count in [0, 1, 15, 17, 32] {
        for word in [0, ALL, ALL + 1, -1] {
            assert_eq!(refused(&vec![word; count]), at(16), "{count} of {word}");
        }
    }
}

#[test]
fn refusals_before_and_after_13() {
    let lent = Lent::roomy(&CELLS, 1);
    let short = |length| Lent { stack: vec![0; length], ..lent.clone() };
    let labelled = |labels: &[i64]| Lent { labels: labels.to_vec(), ..lent.clone() };
    let no_row = Lent { rule_memory: vec![1; 7], ..lent.clone() };
    for (clearances, place) in [(&[-1; 16][..], 0), (&one_closed(15, 0)[..15], 16), (&[0; 17], 16)] {
        let both = |number, place| [Some(Refusal::new(number, place)); 2];
        let refused = |sheet: &[u8], table: &[u8], lent: &Lent, fuel| {
            // What comes after 13 is met where the clearances are as they should be.
            let [plain, tagged] = refusals(sheet, table, lent, &CLEARED_FOR_ALL, fuel);
            let numbers = [plain, tagged].map(|refusal| refusal.map_or(0, |refusal| refusal.number));
            (refusals(sheet, table, lent, clearances, fuel), numbers)
        };
        let thirteen = both(13, place);
        // The sheet, the number of cells and their labels come first.
        assert_eq!(refused(&[3, 0], &STANDARD, &lent, 0), (both(2, 1), [2, 2]));
        assert_eq!(refused(&[5, 0], &STANDARD, &lent, 0), (both(3, 0), [3, 3]));
        assert_eq!(refused(&[0x0c, 16], &STANDARD, &lent, 0), (both(12, 0), [12, 12]));
        assert_eq!(refused(&[0x0d, 16, 0], &STANDARD, &lent, 0), (both(14, 0), [14, 14]));
        assert_eq!(refused(&[3; 4097], &STANDARD, &lent, 0), (both(1, 4096), [1, 1]));
        assert_eq!(refused(&[], &STANDARD, &labelled(&[0]), 0), (both(4, 1), [4, 4]));
        assert_eq!(refused(&[], &STANDARD, &labelled(&[0, -1]), 0), (both(5, 1), [5, 5]));
        // The table, the rule memory, the spaces and the allowance come later.
        assert_eq!(refused(&[], &[], &lent, 0), (thirteen, [0, 6]));
        assert_eq!(refused(&[], &STANDARD, &no_row, 0), (thirteen, [0, 7]));
        assert_eq!(refused(&[], &STANDARD, &short(767), 0), (thirteen, [8, 8]));
        assert_eq!(refused(&[], &STANDARD, &lent, 1_000_001), (thirteen, [9, 9]));
        assert_eq!(refused(&[], &STANDARD, &lent, 0), (thirteen, [0, 0]));
    }
}

#[test]
fn page_clears_every_page_for_all_owners() {
    // Lines of all owners, and one of none, on each page; the end line is of all owners too.
    let cell = [&[0x40][..], &7i64.to_le_bytes(), &[0xff; 4]].concat();
    let prints = (0..16).flat_map(|to| [Push(0), Load, OutputTo(to), Push(8), OutputTo(to)]);
    let sheet = encode(&prints.chain([Push(0), Load, Bnz(1)]).collect::<Vec<_>>());
    let printed = |reader: u32| page(&[&cell[..], &[0x42], &reader.to_le_bytes(), &[0x43], &sheet].concat());
    let both = |to| format!("{to} 7 ffffffff\n{to} 8 00000000\n");
    assert_eq!(printed(u32::MAX), (0..16).map(both).collect::<String>() + "0 end ffffffff\n");
    // What the reader may not see stops nothing.
    for reader in [0, 1, u32::MAX - 1] {
        assert_eq!(printed(reader), (0..16).map(|to| format!("{to} 8 00000000\n")).collect::<String>());
    }
}

#[test]
fn readings_11_and_12() {
    assert!(start_with_rule_memory([1, 0, 1, 1, -1, 0, 1]).is_ok());
    assert_eq!(start_with_rule_memory([1, 0, 1, 1, -1, 0, 0]), Err(Refusal::new(7, 0)));
    assert_eq!(start_with_rule_memory([7, 1, 0, 0, 0, -1, -1]), Err(Refusal::new(7, 0)));
    assert_eq!(start_with_rule_memory([1, 0, 1, 1, 0, 0, 1]), Err(Refusal::new(7, 0)));
}

#[test]
fn stack_limit() {
    let at_limit = run(&[Push(1); 256]);
    assert_eq!((at_limit.report.stop, at_limit.report.depth, at_limit.lines), (Stop::End, 256, vec![end(0)]));
    let beyond = run(&[Push(1); 257]);
    assert_eq!((beyond.report.stop, beyond.report.steps), (Stop::StackFull, 256));
}

#[test]
fn cell_limit() {
    let cells = |count| vec![CELLS[0]; count];
    assert!(run_with(&[], &cells(1024), 10, 10).is_ok());
    assert_eq!(run_with(&[], &cells(1025), 10, 10).err(), Some(Refusal::new(4, 1024)));
}

#[test]
fn tempting_mistakes() {
    // Add does not reach past a frame.
    assert_eq!(stop_of(&[Push(1), Push(3), Call, Add], 10), Stop::ValueMissing);
    // Ret does not keep P: the line after a hidden call is public (reading 5), and one inside is not.
    let inside = run(&[Push(1), Load, Push(4), Call, Bnz(1), Push(3), Output]);
    assert_eq!(inside.lines, [line(3, 1), end(1)]);
    // Store is tested on the old label: a public cell is not raised under a hidden place, a hidden one may change.
    let hidden = run(&[Push(1), Load, Bnz(1), Push(7), Push(1), Store]);
    assert_eq!((hidden.report.stop, hidden.lent.values[1], hidden.lent.labels[1]), (Stop::End, 7, 1));
    // Call needs a target and an argument.
    assert_eq!(stop_of(&[Push(0), Call], 10), Stop::ValueMissing);
}

#[test]
fn sheets_refused() {
    let refused = |bytes: &[u8]| decode(bytes).unwrap_err();
    assert_eq!(refused(&[3; 4097]), Refusal::new(1, 4096));
    assert_eq!(refused(&[[3; 4096].as_slice(), &[0xff]].concat()), Refusal::new(1, 4096));
    assert_eq!(refused(&[3, 0]), Refusal::new(2, 1));
    assert_eq!(refused(&[3, 0x0f]), Refusal::new(2, 1));
    assert_eq!(refused(&[3, 5, 1, 2, 3, 4, 5, 6, 7]), Refusal::new(3, 1));
    assert_eq!(refused(&[9, 1]), Refusal::new(3, 0));
    assert_eq!(refused(&[3, 0x0c]), Refusal::new(3, 1));
    assert_eq!(refused(&[3, 0x0c, 16]), Refusal::new(12, 1));
    assert_eq!(refused(&[0x0c, 0xff, 0, 5]), Refusal::new(12, 0));
    assert_eq!(refused(&[0x0c, 15, 0, 0x0c, 16]), Refusal::new(2, 2));
    assert_eq!(refused(&[[3; 4096].as_slice(), &[0x0c, 16]].concat()), Refusal::new(1, 4096));
    assert_eq!(refused(&[[3; 4095].as_slice(), &[0x0c, 16, 3]].concat()), Refusal::new(12, 4095));
    assert_eq!(decode(&[0x0c, 0, 0x0c, 15]).unwrap(), [OutputTo(0), OutputTo(15)]);
    assert_eq!(decode(&[3; 4096]).unwrap().len(), 4096);
    assert_eq!(decode(&[9, 0xfe, 0xff]).unwrap(), [Bnz(-2)]);
}

#[test]
fn cells_refused() {
    let run = |values: &[i64], labels: &[i64]| {
        let mut lent = Lent::roomy(&[], 0);
        lent.values = values.to_vec();
        lent.labels = labels.to_vec();
        plain(&[], &mut lent, &CLEARED_FOR_ALL, 0).err()
    };
    assert_eq!(run(&[1, 2], &[0]), Some(Refusal::new(4, 1)));
    assert_eq!(run(&[0; 2000], &[0; 1500]), Some(Refusal::new(4, 1500)));
    assert_eq!(run(&[1, 2, 3], &[0, 1 << 32, -1]), Some(Refusal::new(5, 1)));
    assert_eq!(run(&[1], &[u32::MAX.into()]), None);
}

#[test]
fn tables_refused() {
    let refused = |bytes: &[u8]| Table::parse(bytes).err().map(|refusal| refusal.place);
    assert_eq!(refused(&STANDARD), None);
    assert_eq!(refused(&STANDARD[..59]), Some(59));
    assert_eq!(refused(&[]), Some(0));
    assert_eq!(refused(&[&STANDARD[..], &[0x10]].concat()), Some(60));
    assert_eq!(refused(&[0; 513]), Some(512));
    assert_eq!(refused(&[0x10]), Some(0));
    assert_eq!(refused(&[0x17, 0x17]), Some(1));
    assert_eq!(refused(&[0x17, 0x14]), Some(1));
    // Pop's result must be 10.
    let mut table = STANDARD;
    table[12] = 0x11;
    assert_eq!(refused(&table), Some(12));
    table[12] = 0x15;
    assert_eq!(refused(&table), Some(12));
    // Seven operators over a lone byte are eight deep, eight are nine deep.
    let deep = |operators| [&vec![0x18; operators][..], &vec![0x17; operators + 1], &STANDARD[1..]].concat();
    assert_eq!(refused(&deep(7)), None);
    assert_eq!(refused(&deep(8)), Some(8));
    assert_eq!(Table::parse(&STANDARD).unwrap().bytes(), STANDARD);
}

#[test]
fn spaces_refused() {
    let sample = Sample::of(&Table::parse(&STANDARD).unwrap());
    let handler = sample.handler();
    let run = |program: usize, stack: usize, words: usize, fuel: u64| {
        let mut lent = Lent::roomy(&CELLS, 10);
        lent.program.truncate(program);
        lent.stack.truncate(stack);
        lent.handler.truncate(words);
        tagged(&[3, 3], &STANDARD, handler, &mut lent, &CLEARED_FOR_ALL, fuel).answer.err()
    };
    let enough = 2 * handler.count;
    assert_eq!(run(4, 768, enough, 1_000_000), None);
    assert_eq!(run(3, 767, 0, 1_000_001), Some(Refusal::new(8, 1)));
    assert_eq!(run(4, 767, 0, 1_000_001), Some(Refusal::new(8, 2)));
    assert_eq!(run(4, 768, enough - 1, 1_000_001), Some(Refusal::new(8, 3)));
    assert_eq!(run(4, 768, enough, 1_000_001), Some(Refusal::new(9, 0)));
}

#[test]
fn place_and_output_stops() {
    assert_eq!(stop_of(&[Push(-1), Jump], 10), Stop::PlaceOutside);
    assert_eq!(stop_of(&[Push(3), Jump], 10), Stop::PlaceOutside);
    assert_eq!(stop_of(&[Push(2), Jump], 2), Stop::End);
    assert_eq!(stop_of(&[Push(3), Jump], 2), Stop::AllowanceSpent);
    let full = run_with(&[Push(1), Output, Push(2), Output], &CELLS, 10, 1).unwrap();
    assert_eq!((full.report.stop, full.report.steps, full.lines), (Stop::OutputFull, 3, vec![line(1, 0)]));
}

#[test]
fn jobs() {
    assert_eq!(page(&[]), "job 0\n");
    assert_eq!(page(&[0x41, 1, 0, 0, 0]), "job 5\n");
    assert_eq!(page(&[0x41, 1, 0, 0]), "job 0\n");
    assert_eq!(page(&[0x41, 1, 0, 0, 0, 0x44]), "job 5\n");
    assert_eq!(page(&vec![0x43; 65_537]), "job 65536\n");
    assert_eq!(page(&[0x43, 0]), "refused 2 0\n");
    assert_eq!(page(&[0x43, 3, 0x0c, 16]), "refused 12 1\n");
    assert_eq!(page(&[0x41, 0x41, 0x42, 0x0f, 0, 0x43, 0x0c, 16]), "refused 12 0\n");
    assert_eq!(page(&[0x41, 0x41, 0x42, 0x0f, 0, 0x43]), "refused 9 0\n");
    assert_eq!(page(&[0x41, 0x40, 0x42, 0x0f, 0, 0x43]), "0 end 00000000\n");
    let cell = [0x40, 0, 0, 0, 0, 0, 0, 0, 0, 0, 0, 0, 0];
    assert_eq!(page(&[&cell.repeat(1024)[..], &[0x43]].concat()), "0 end 00000000\n");
    assert_eq!(page(&[&cell.repeat(1025)[..], &[0x43]].concat()), "job 13312\n");
    // The last 41 and 42 hold.
    let mut twice = vec![0x42, 1, 0, 0, 0];
    twice.extend(job(0, &r1()));
    assert_eq!(page(&twice), "0 7 00000000\n0 end 00000000\n");
}

#[test]
fn the_standard_table_is_the_standard_rules() {
    let table = Table::parse(&STANDARD).unwrap();
    for code in 0x01..=0x0e {
        let inputs = model::sheet::inputs_of(code);
        for bits in 0..256u32 {
            let part = |index: u32| bits >> (2 * index) & 3;
            let mut question = Question { code, place: part(0), inputs: [None; 3] };
            for index in 0..inputs {
                question.inputs[index] = Some(part(1 + index as u32));
            }
            assert_eq!(table.answer(&question), standard(&question), "{question:?}");
        }
    }
}

#[test]
fn a_wrong_handler_is_found() {
    let handler = Handler { count: 1, words: &[0x0b, 0] };
    let mut lent = Lent::roomy(&CELLS, 9);
    let wrong = tagged(&encode(&r1()), &STANDARD, handler, &mut lent, &CLEARED_FOR_ALL, 100).wrong;
    assert!(wrong.is_some());
    assert!(flows(0b101, 0b111) && !flows(0b1000, 0b111));
}
