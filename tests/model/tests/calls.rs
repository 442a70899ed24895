//! Document 02's U6, calls that bring something back, on both engines.

mod common;

use common::*;
use model::engine::{tagged, Lent, Report, CLEARED_FOR_ALL};
use model::machine::{Stop, STACK};
use model::page::page;
use model::rules::{LabelTree, Table, YesNoTree, STANDARD};
use model::sample::Sample;
use model::sheet::{decode, encode, Command, Command::*};
use model::{Atom, Label, Refusal};

/// The stack's words after so many steps, which must not be the run's last, from the bottom to the top.
fn stack_after(sheet: &[Command], steps: u64) -> Vec<[i64; 3]> {
    let run = run_with(sheet, &CELLS, steps, 100).unwrap();
    assert_eq!((run.report.stop, run.report.steps), (Stop::AllowanceSpent, steps));
    entries(&run.lent, run.report.depth)
}

fn entries(lent: &Lent, depth: u64) -> Vec<[i64; 3]> {
    lent.stack.chunks_exact(3).take(depth as usize).map(|words| [words[0], words[1], words[2]]).collect()
}

/// A run's stop, steps and depth.
fn came_to(sheet: &[Command]) -> (u8, u64, u64) {
    let report = run(sheet).report;
    (report.stop as u8, report.steps, report.depth)
}

/// Owner 0's height is corrected by a called function, which returns it.
fn corrected() -> Vec<Command> {
    let caller = [Push(1), Load, Push(7), CallN(1, 1), Output, Push(11), Jump];
    [&caller[..], &[Push(0), Load, Add, RetV]].concat()
}

#[test]
fn a_height_that_comes_back() {
    let run = run(&corrected());
    assert_eq!(run.lines, [line(12, 1), end(0)]);
    assert_eq!((run.report.stop, run.report.steps, run.report.depth), (Stop::End, 11, 0));
    assert_eq!(page(&job(1, &corrected())), "0 12 00000001\n0 end 00000000\n");
    assert_eq!(page(&job(0, &corrected())), "0 end 00000000\n");
}

#[test]
fn operand_words() {
    let program = |command| run_with(&[Push(0), Jump, command], &[], 1, 1).unwrap().lent.program;
    for arguments in 0..16 {
        for results in 0..2 {
            let words = [13, 16 * i64::from(arguments) + i64::from(results)];
            assert_eq!(program(CallN(arguments, results))[4..6], words);
        }
    }
    assert_eq!(program(CallN(15, 1))[4..6], [13, 241]);
    assert_eq!(program(RetV)[4..6], [14, 0]);
}

#[test]
fn a_frame_goes_under_the_arguments() {
    for arguments in 0..16 {
        for results in 0..2 {
            // Something below, then the arguments 20, 21 and so on.
            let pushes = (0..i64::from(arguments)).map(|argument| Push(20 + argument));
            let mut sheet: Vec<Command> = [Push(3)].into_iter().chain(pushes).collect();
            let place = sheet.len() as i64 + 2;
            sheet.extend([Push(place), CallN(arguments, results), Pop]);
            let below = [[0, 3, 0], [1 + i64::from(results), place, 0]];
            let above = (0..i64::from(arguments)).map(|argument| [0, 20 + argument, 0]);
            let expected: Vec<[i64; 3]> = below.into_iter().chain(above).collect();
            assert_eq!(stack_after(&sheet, place as u64), expected);
        }
    }
}

#[test]
fn arguments_keep_their_labels_and_the_frame_has_p() {
    // Under a branch on owner 0's number: a public argument, a secret one, and owner 1's.
    let cells = [CELLS[0], CELLS[1], Atom { number: 9, label: 2 }];
    let sheet = [Push(1), Load, Bnz(1), Push(3), Push(1), Load, Push(2), Load, Push(10), CallN(3, 1), Pop];
    let run = run_with(&sheet, &cells, 10, 9).unwrap();
    let expected = [[2, 10, 1], [0, 3, 0], [0, 5, 1], [0, 9, 2]];
    assert_eq!((run.report.place, run.report.place_label), (10, 1));
    assert_eq!(entries(&run.lent, run.report.depth), expected);
    // A target that is owner 1's makes the place owner 1's too; the frame has the label of the place before.
    let sheet = [Push(1), Load, Bnz(1), Push(2), Load, CallN(0, 0)];
    let run = run_with(&sheet, &cells, 6, 9).unwrap();
    assert_eq!((run.report.place, run.report.place_label), (9, 3));
    assert_eq!(entries(&run.lent, run.report.depth), [[1, 6, 1]]);
}

#[test]
fn a_call_is_one_argument_and_no_result() {
    // Reading 5, with either call.
    let sheet = |call| [Push(1), Load, Push(8), call, Push(8), Output, Push(10), Jump, Bnz(1), Ret];
    for fuel in 0..12 {
        let old = run_with(&sheet(Call), &CELLS, fuel, 9).unwrap();
        let new = run_with(&sheet(CallN(1, 0)), &CELLS, fuel, 9).unwrap();
        let Report { kernel_steps, .. } = new.report;
        assert_eq!(Report { kernel_steps, ..old.report }, new.report);
        let mut memory = old.lent.rule_memory.clone();
        if memory[0] == 10 {
            memory[0] = 13;
        }
        let mut program = old.lent.program.clone();
        program[6..8].copy_from_slice(&[13, 16]);
        assert_eq!(Lent { rule_memory: memory, program, ..old.lent }, new.lent);
    }
}

#[test]
fn a_value_comes_back_in_the_frames_entry() {
    let sheet = [Push(9), Push(4), CallN(0, 1), Pop, Push(6), RetV];
    assert_eq!(stack_after(&sheet, 4), [[0, 9, 0], [2, 3, 0], [0, 6, 0]]);
    let run = run_with(&sheet, &CELLS, 5, 9).unwrap();
    assert_eq!((run.report.depth, run.report.place), (2, 3));
    // The old top entry keeps its words.
    assert_eq!(entries(&run.lent, 3), [[0, 9, 0], [0, 6, 0], [0, 6, 0]]);
    // So it does where the result has another label: a public value from a hidden place.
    let hidden = [Push(5), CallN(0, 1), Output, Push(10), Jump, Push(1), Load, Bnz(1), Push(6), RetV];
    let run = run_with(&hidden, &CELLS, 7, 9).unwrap();
    assert_eq!((run.report.depth, run.report.place, run.report.place_label), (1, 2, 0));
    assert_eq!(entries(&run.lent, 2), [[0, 6, 1], [0, 6, 0]]);
    // Frames that are dropped keep theirs too.
    let run = run_with(&[Push(3), CallN(0, 0), Pop, Ret], &CELLS, 3, 9).unwrap();
    assert_eq!((run.report.depth, entries(&run.lent, 1)), (0, vec![[1, 2, 0]]));
}

#[test]
fn labels_of_a_return() {
    /// What comes back, and the place's label then. The call is made at a place of this label.
    fn returned(place: Label, value: Label, inside: Label) -> ([i64; 3], Label) {
        let cells = [place, value, inside].map(|label| Atom { number: 1, label });
        let caller = [Push(0), Load, Bnz(1), Push(6), CallN(0, 1), Pop];
        let sheet = [&caller[..], &[Push(2), Load, Bnz(1), Push(1), Load, RetV]].concat();
        let run = run_with(&sheet, &cells, 11, 9).unwrap();
        assert_eq!((run.report.stop, run.report.place), (Stop::AllowanceSpent, 5));
        (entries(&run.lent, 1)[0], run.report.place_label)
    }
    // The place's label is the frame's; the value gets those of the place that it comes from.
    assert_eq!(returned(0, 0, 0), ([0, 1, 0], 0));
    assert_eq!(returned(0, 1, 0), ([0, 1, 1], 0));
    assert_eq!(returned(0, 0, 1), ([0, 1, 1], 0));
    assert_eq!(returned(0, 2, 1), ([0, 1, 3], 0));
    assert_eq!(returned(4, 0, 0), ([0, 1, 4], 4));
    assert_eq!(returned(4, 2, 1), ([0, 1, 7], 4));
}

#[test]
fn hidden_ways_come_back_alike() {
    // A function branches on owner 0's number and returns either of two numbers; then the caller prints a constant.
    let caller = [Push(7), CallN(0, 1), Output, Push(3), Output, Push(14), Jump];
    let function = [Push(1), Load, Bnz(3), Push(8), RetV, Push(9), RetV];
    let sheet = [&caller[..], &function].concat();
    for (number, result) in [(5, 9), (0, 8)] {
        let cells = [CELLS[0], Atom { number, label: 1 }];
        let run = run_with(&sheet, &cells, 99, 9).unwrap();
        assert_eq!(run.lines, [line(result, 1), line(3, 0), end(0)]);
    }
    assert_eq!(page(&job(0, &sheet)), "0 3 00000000\n0 end 00000000\n");
}

#[test]
fn nested_calls() {
    // The outer function adds 1 to what the inner one returns, which is its argument.
    let caller = [Push(20), Push(6), CallN(1, 1), Output, Push(14), Jump];
    let outer = [Push(11), CallN(1, 1), Push(1), Add, RetV];
    let inner = [Push(0), Add, RetV];
    let sheet = [&caller[..], &outer, &inner].concat();
    assert_eq!(stack_after(&sheet, 5), [[2, 3, 0], [2, 8, 0], [0, 20, 0]]);
    assert_eq!((run(&sheet).lines, run(&sheet).report.steps), (vec![line(21, 0), end(0)], 14));
    // A frame with no result due over one with a result due, and back.
    let mixed = [Push(3), CallN(0, 1), Output, Push(6), CallN(0, 0), Jump, Push(5), Pop, Ret];
    assert_eq!(stack_after(&mixed, 4), [[2, 2, 0], [1, 5, 0]]);
    assert_eq!(came_to(&mixed), (3, 7, 1));
}

#[test]
fn results_that_do_not_match() {
    // Ret on a frame that owes a result; RetV on one that owes none, made by either call.
    assert_eq!(came_to(&[Push(2), CallN(0, 1), Ret]), (11, 2, 1));
    assert_eq!(came_to(&[Push(3), CallN(0, 0), Load, Ret]), (3, 3, 0));
    assert_eq!(came_to(&[Push(2), CallN(0, 0), Push(5), RetV]), (11, 3, 2));
    assert_eq!(came_to(&[Push(5), Push(3), Call, RetV]), (11, 3, 2));
    assert_eq!(came_to(&[Push(5), Push(3), CallN(1, 0), RetV]), (11, 3, 2));
    assert_eq!(came_to(&[Push(5), Push(4), CallN(1, 1), Add, RetV]), (3, 4, 1));
    // The frame decides, not the one below it.
    let over = |upper, lower| [Push(2), CallN(0, lower), Push(4), CallN(0, upper)];
    assert_eq!(came_to(&[&over(1, 0)[..], &[Ret]].concat()), (11, 4, 2));
    assert_eq!(came_to(&[&over(0, 1)[..], &[Push(1), RetV]].concat()), (11, 5, 3));
}

#[test]
fn a_return_that_does_not_match_changes_nothing() {
    // A cell and a line are written; then a call branches on a secret and returns the wrong way.
    let before = [Push(9), Push(0), Store, Push(3), Output, Push(1), Load, Push(9)];
    for (call, way) in [(CallN(1, 1), Ret), (CallN(1, 0), RetV), (Call, RetV)] {
        let function = if way == Ret { vec![Bnz(1), Push(0), Pop, Ret] } else { vec![Bnz(1), Push(0), RetV] };
        let sheet = [&before[..], &[call], &function].concat();
        let steps = sheet.len() as u64 - 1;
        let spent = run_with(&sheet, &CELLS, steps, 5).unwrap();
        let stopped = run_with(&sheet, &CELLS, steps + 1, 5).unwrap();
        assert_eq!((spent.report.stop, spent.report.steps), (Stop::AllowanceSpent, steps));
        // No rule was asked: faults, kernel steps and rule memory are as they were.
        assert_eq!(stopped.report, Report { stop: Stop::ResultsDiffer, ..spent.report });
        assert_eq!((stopped.report.place_label, stopped.report.lines), (1, 1));
        assert_eq!(stopped.lent, spent.lent);
    }
}

#[test]
fn stops_at_retv() {
    // No value on top: nothing at all, or a frame, of either kind, over nothing, a value or a frame.
    assert_eq!(came_to(&[RetV]), (3, 0, 0));
    assert_eq!(came_to(&[Push(2), CallN(0, 1), RetV]), (3, 2, 1));
    assert_eq!(came_to(&[Push(2), CallN(0, 0), RetV]), (3, 2, 1));
    assert_eq!(came_to(&[Push(8), Push(3), CallN(0, 1), RetV]), (3, 3, 2));
    assert_eq!(came_to(&[Push(2), CallN(0, 0), Push(4), CallN(0, 1), RetV]), (3, 4, 2));
    assert_eq!(came_to(&[Push(2), CallN(0, 1), Push(4), CallN(0, 1), RetV]), (3, 4, 2));
    // A value on top, and under it nothing or a value, also where a frame is further down.
    assert_eq!(came_to(&[Push(1), RetV]), (4, 1, 1));
    assert_eq!(came_to(&[Push(1), Push(2), RetV]), (4, 2, 2));
    assert_eq!(came_to(&[Push(2), CallN(0, 1), Push(1), Push(2), RetV]), (4, 4, 3));
    assert_eq!(came_to(&[Push(2), CallN(0, 0), Push(1), Push(2), RetV]), (4, 4, 3));
    // Ret: 4 without a frame on top, whatever is under it.
    assert_eq!(came_to(&[Push(2), CallN(0, 1), Push(1), Ret]), (4, 3, 2));
    assert_eq!(came_to(&[Push(2), CallN(0, 0), Push(1), Ret]), (4, 3, 2));
}

#[test]
fn stops_at_calln() {
    // No target: nothing, or a frame.
    assert_eq!(came_to(&[CallN(0, 0)]), (3, 0, 0));
    assert_eq!(came_to(&[CallN(0, 1)]), (3, 0, 0));
    assert_eq!(came_to(&[Push(2), CallN(0, 1), CallN(0, 0)]), (3, 2, 1));
    // Too few arguments, also by one; just enough.
    assert_eq!(came_to(&[Push(2), CallN(1, 0)]), (3, 1, 1));
    for few in 0..15 {
        let pushes = |count: usize| [vec![Push(0); count], vec![Push(count as i64 + 2)]].concat();
        let sheet = [&pushes(few)[..], &[CallN(few as u8 + 1, 1)]].concat();
        assert_eq!(came_to(&sheet), (3, few as u64 + 1, few as u64 + 1));
        let sheet = [&pushes(few + 1)[..], &[CallN(few as u8 + 1, 1)]].concat();
        assert_eq!(came_to(&sheet), (0, few as u64 + 3, few as u64 + 2));
    }
    // A frame among the arguments: right under the target, the last, in between; or just beyond them.
    let framed = |above: usize| {
        let place = above as i64 + 5;
        [&[Push(7), Push(3), CallN(0, 0)][..], &vec![Push(0); above], &[Push(place)]].concat()
    };
    for (above, arguments, stop) in [(0, 1, 3), (1, 2, 3), (2, 3, 3), (1, 3, 3), (2, 2, 0), (0, 0, 0)] {
        let sheet = [&framed(above)[..], &[CallN(arguments, 1)]].concat();
        assert_eq!(came_to(&sheet).0, stop, "{above} above, {arguments} arguments");
    }
}

#[test]
fn a_call_needs_no_room() {
    // 256 entries, of which the last is the target.
    for (arguments, results) in [(0, 0), (0, 1), (1, 1), (15, 0), (15, 1)] {
        let mut sheet = vec![Push(1); STACK - 1];
        sheet.extend([Push(257), CallN(arguments, results), Push(1)]);
        let run = run_with(&sheet, &CELLS, 257, 1).unwrap();
        assert_eq!((run.report.stop, run.report.depth), (Stop::AllowanceSpent, 256));
        assert_eq!(came_to(&sheet), (7, 257, 256));
    }
}

#[test]
fn places_of_calls_and_returns() {
    // A target outside is stop 2 after the call; a frame's place may be the end.
    assert_eq!(came_to(&[Push(-1), CallN(0, 1)]), (2, 2, 1));
    assert_eq!(came_to(&[Push(3), CallN(0, 0)]), (2, 2, 1));
    assert_eq!(came_to(&[Push(2), CallN(0, 0)]), (0, 2, 1));
    assert_eq!(came_to(&[Push(6), Push(4), Jump, RetV, Push(3), CallN(1, 1)]), (0, 6, 1));
}

#[test]
fn rows_of_their_own() {
    // A call finds the row of a call before it only where it is of the same command.
    let twice = |one, two| {
        // Two arguments, then the target of the second call, then that of the first, which is the second's place.
        let run = run_with(&[Push(0), Push(9), Push(6), Push(5), one, two, Pop], &CELLS, 6, 9).unwrap();
        (run.report.stop, run.report.faults, run.lent.rule_memory)
    };
    let row = |code| vec![code, 0, 0, -1, -1, 0, 0];
    let spent = Stop::AllowanceSpent;
    assert_eq!(twice(CallN(2, 0), CallN(1, 0)), (spent, 2, row(13)));
    assert_eq!(twice(CallN(2, 1), CallN(0, 0)), (spent, 2, row(13)));
    assert_eq!(twice(CallN(2, 0), Call), (spent, 3, row(10)));
    assert_eq!(twice(Call, CallN(0, 1)), (spent, 3, row(13)));
    // A RetV right after one, at the same labels, finds its row.
    let tail = [Push(4), CallN(0, 1), Push(9), Jump, Push(7), CallN(0, 1), RetV, Push(5), RetV];
    let run = run_with(&tail, &CELLS, 7, 9).unwrap();
    let before = run_with(&tail, &CELLS, 6, 9).unwrap();
    assert_eq!((run.report.place, run.report.depth), (2, 1));
    assert_eq!(run.report.faults, before.report.faults);
    assert_eq!(run.lent.rule_memory, [14, 0, 0, 0, -1, 0, 0]);
}

#[test]
fn rule_memories_at_the_start() {
    let accepted = |memory| start_with_rule_memory(memory).is_ok();
    let refused = |memory| start_with_rule_memory(memory) == Err(Refusal::new(7, 0));
    // 13 has Call's rule and one input, 14 RetV's and two.
    for code in [10, 13] {
        assert!(accepted([code, 1, 2, -1, -1, 3, 1]));
        assert!(refused([code, 1, 2, -1, -1, 3, 3]));
        assert!(refused([code, 1, 2, -1, -1, 1, 1]));
        assert!(refused([code, 1, 2, 0, -1, 3, 1]));
        assert!(refused([code, 1, -1, -1, -1, 3, 1]));
        assert!(refused([code, 1, 2, -1, -1, -1, -1]));
    }
    assert!(accepted([14, 1, 2, 4, -1, 4, 3]));
    assert!(refused([14, 1, 2, 4, -1, 4, 2]));
    assert!(refused([14, 1, 2, 4, -1, 5, 3]));
    assert!(refused([14, 1, 2, 4, -1, 2, 3]));
    assert!(refused([14, 1, 2, -1, -1, 2, 3]));
    assert!(refused([14, 1, 2, 4, 0, 4, 3]));
    assert!(refused([14, 1, 2, 4, -1, -1, -1]));
    // 15 is no command.
    assert!(refused([15, 1, 2, -1, -1, 3, 1]));
    assert!(refused([15, 1, 2, 4, -1, 4, 3]));
}

/// A run on the tag engine under another table.
fn run_under(table: &Table, sheet: &[Command]) -> (Stop, u64, Vec<i64>) {
    let sample = Sample::of(table);
    let mut lent = Lent::roomy(&CELLS, 5);
    let run = tagged(&encode(sheet), &table.bytes(), sample.handler(), &mut lent, &CLEARED_FOR_ALL, 50);
    assert_eq!(run.wrong, None);
    let report = run.answer.unwrap();
    (report.stop, report.faults, lent.rule_memory)
}

fn only_public(input: usize) -> YesNoTree {
    YesNoTree::Flows(LabelTree::Input(input), LabelTree::Empty)
}

#[test]
fn calln_is_under_calls_rule() {
    let mut table = Table::parse(&STANDARD).unwrap();
    table.rules[9].allowed = only_public(1);
    let sheet = |cell, call| [Push(3), Push(cell), Load, call];
    for (call, code) in [(Call, 10), (CallN(1, 0), 13), (CallN(0, 1), 13)] {
        assert_eq!(
            run_under(&table, &sheet(0, call)),
            (Stop::PlaceOutside, 3, vec![code, 0, 0, -1, -1, 0, 0])
        );
        let denied = (Stop::NotAllowed, 3, vec![code, 0, 1, -1, -1, -1, -1]);
        assert_eq!(run_under(&table, &sheet(1, call)), denied);
    }
}

#[test]
fn retv_has_a_rule_of_its_own() {
    let sheet = |cell| [Push(4), CallN(0, 1), Push(-1), Jump, Push(cell), Load, RetV];
    let mut table = Table::parse(&STANDARD).unwrap();
    table.rules[11].allowed = only_public(1);
    assert_eq!(run_under(&table, &sheet(1)).0, Stop::NotAllowed);
    assert_eq!(run_under(&table, &sheet(1)).2, [14, 0, 1, 0, -1, -1, -1]);
    assert_eq!(run_under(&table, &sheet(0)).0, Stop::PlaceOutside);
    // Ret's rule does not matter to it.
    let mut table = Table::parse(&STANDARD).unwrap();
    table.rules[10].allowed = only_public(1);
    table.rules[10].place = LabelTree::Empty;
    assert_eq!(run_under(&table, &sheet(1)).0, Stop::PlaceOutside);
    // L1 and L2 are supplied, L3 is not; it has a result.
    let with = |rule: &[u8]| Table::parse(&[&STANDARD[..55], rule].concat()).err();
    assert_eq!(with(&[0x17, 0x13, 0x12]), None);
    assert_eq!(with(&[0x16, 0x13, 0x12, 0x12, 0x13]), None);
    assert_eq!(with(&[0x17, 0x14, 0x10]), Some(Refusal::new(6, 56)));
    assert_eq!(with(&[0x17, 0x13, 0x14]), Some(Refusal::new(6, 57)));
}

#[test]
fn tables_of_the_day_before() {
    // Without RetV's expressions, or with some of them, a table is refused at its length.
    for (rule, length) in [(&[][..], 55), (&[0x17], 56), (&[0x17, 0x13], 57), (&[0x17, 0x13, 0x15, 0x12], 59)]
    {
        let table = [&STANDARD[..55], rule].concat();
        assert_eq!(Table::parse(&table).err(), Some(Refusal::new(6, length)));
    }
    assert!(Table::parse(&[&STANDARD[..55], &[0x17, 0x13, 0x15, 0x12, 0x11]].concat()).is_ok());
    // RetV's rule stands after Ret's, and there is none for 0c or 0d.
    let more = [&STANDARD[..], &[0x17, 0x13, 0x10]].concat();
    assert_eq!(Table::parse(&more).err(), Some(Refusal::new(6, 60)));
    let in_order_of_codes =
        [&STANDARD[..55], &[0x17, 0x11, 0x10], &[0x17, 0x11, 0x10], &STANDARD[55..]].concat();
    assert_eq!(Table::parse(&in_order_of_codes).err(), Some(Refusal::new(6, 58)));
}

#[test]
fn results_are_tested_before_the_rule_is_asked() {
    // A table that allows neither return.
    let mut table = Table::parse(&STANDARD).unwrap();
    let never = YesNoTree::Flows(
        LabelTree::Join(LabelTree::Input(1).into(), LabelTree::Place.into()),
        LabelTree::Empty,
    );
    table.rules[10].allowed = never.clone();
    table.rules[11].allowed = never;
    // At a place that is owner 0's.
    let hidden = |call, back: &[Command]| [&[Push(1), Load, Bnz(1), Push(5), call][..], back].concat();
    assert_eq!(run_under(&table, &hidden(CallN(0, 0), &[Ret])).0, Stop::NotAllowed);
    assert_eq!(run_under(&table, &hidden(CallN(0, 1), &[Push(1), RetV])).0, Stop::NotAllowed);
    let row = vec![13, 1, 0, -1, -1, 1, 1];
    assert_eq!(run_under(&table, &hidden(CallN(0, 1), &[Ret])), (Stop::ResultsDiffer, 5, row));
    let row = vec![5, 1, -1, -1, -1, 1, 0];
    assert_eq!(run_under(&table, &hidden(CallN(0, 0), &[Push(1), RetV])), (Stop::ResultsDiffer, 6, row));
}

#[test]
fn sheets_with_calls_refused() {
    let refused = |bytes: &[u8]| decode(bytes).unwrap_err();
    // Both limits, and one beyond.
    assert_eq!(decode(&[0x0d, 15, 1, 0x0e, 0x0d, 0, 0]).unwrap(), [CallN(15, 1), RetV, CallN(0, 0)]);
    assert_eq!(refused(&[3, 0x0d, 16, 1]), Refusal::new(14, 1));
    assert_eq!(refused(&[3, 0x0d, 15, 2]), Refusal::new(14, 1));
    // This one has the word of CallN 1 0.
    assert_eq!(refused(&[0x0d, 0, 0x10]), Refusal::new(14, 0));
    assert_eq!(refused(&[0x0d, 0xff, 0xff, 0]), Refusal::new(14, 0));
    // 3 before 14, 1 before both; 0f is no command.
    assert_eq!(refused(&[3, 0x0d]), Refusal::new(3, 1));
    assert_eq!(refused(&[3, 0x0d, 16]), Refusal::new(3, 1));
    assert_eq!(refused(&[[3; 4096].as_slice(), &[0x0d, 16, 2]].concat()), Refusal::new(1, 4096));
    assert_eq!(refused(&[[3; 4095].as_slice(), &[0x0d, 16, 2, 3]].concat()), Refusal::new(14, 4095));
    assert_eq!(refused(&[0x0e, 0x0f]), Refusal::new(2, 1));
    // In the place of 12.
    assert_eq!(refused(&[0x0d, 16, 0, 0x0c, 16]), Refusal::new(14, 0));
    assert_eq!(refused(&[0x0c, 16, 0x0d, 16, 0]), Refusal::new(12, 0));
    assert_eq!(page(&[0x43, 3, 0x0d, 0, 2]), "refused 14 1\n");
    assert_eq!(page(&[0x41, 0x41, 0x42, 0x0f, 0, 0x43, 0x0d, 16, 0]), "refused 14 0\n");
}
