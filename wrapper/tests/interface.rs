//! The wrapper's own part: names of refusals and stops, owned memory, clearances, pages, texts.

use luvrodan::sys::ALL_OWNERS;
use luvrodan::{
    assemble, assemble_into, handler_count, list, list_into, page, page_into, plain_raw, tagged_raw, Atom,
    Clearances, Entry, Kind, Lent, Line, Machine, Refusal, ShortBuffer, Space, Stop, Tags, PAGE_LIMIT,
    SHEET_LIMIT, STANDARD_TABLE, TEXT_LIMIT,
};

const CELLS: [Atom; 2] = [Atom { number: 7, label: 0 }, Atom { number: 5, label: 1 }];

fn push(number: i64) -> Vec<u8> {
    [&[5][..], &number.to_le_bytes()].concat()
}

/// A sheet of byte strings.
fn sheet(parts: &[&[u8]]) -> Vec<u8> {
    parts.concat()
}

#[test]
fn lines_and_cells() {
    let sheet = sheet(&[&push(1), &[6], &push(0), &[6, 1, 4], &push(0), &[6, 4]]);
    let mut machine = Machine::new(&CELLS, 10);
    for engine in ["plain", "tagged"] {
        let report = match engine {
            "plain" => machine.run_plain(&sheet, 100),
            _ => machine.run_tagged(&sheet, &STANDARD_TABLE, 100),
        }
        .unwrap();
        assert_eq!((report.stop, report.steps, report.lines, report.depth), (Stop::End, 9, 3, 0));
        let lines: Vec<_> = machine.lines().collect();
        let number = |number, label| Line { page: 0, kind: Kind::Number, number, label };
        let end = Line { page: 0, kind: Kind::End, number: 0, label: 0 };
        assert_eq!(lines, [number(12, 1), number(7, 0), end]);
        assert_eq!(view(&machine, 0), ["0 7 00000000", "0 end 00000000"]);
        assert_eq!(machine.cells().collect::<Vec<_>>(), CELLS);
    }
    assert_eq!(machine.rule_memory(), [4, 0, 0, -1, -1, 0, 0]);
}

/// A reader's lines as `page` prints them.
fn view(machine: &Machine, set: u32) -> Vec<String> {
    machine.view(set).map(|line| line.to_string()).collect()
}

#[test]
fn whole_views() {
    // After a branch on cell 1 the end, too, is for owner 0 only.
    let sheet = sheet(&[&push(3), &[4], &push(1), &[6, 9, 1, 0]]);
    let mut machine = Machine::new(&CELLS, 2);
    machine.run_plain(&sheet, 5).unwrap();
    assert_eq!(view(&machine, 1), ["0 3 00000000", "0 end 00000001"]);
    assert_eq!(view(&machine, 0), ["0 3 00000000"]);
    assert!(machine.view_is_whole(1) && !machine.view_is_whole(0));
    // Cut by the allowance; by the room, at the end, also where the allowance is spent.
    assert_eq!(machine.run_plain(&sheet, 4).unwrap().stop, Stop::AllowanceSpent);
    assert!(!machine.view_is_whole(1));
    let mut machine = Machine::new(&CELLS, 1);
    for fuel in [5, 6] {
        let report = machine.run_tagged(&sheet, &STANDARD_TABLE, fuel).unwrap();
        assert_eq!((report.stop, report.steps, report.place, report.lines), (Stop::OutputFull, 5, 5, 1));
        assert_eq!(view(&machine, 1), ["0 3 00000000"]);
        assert!(!machine.view_is_whole(1));
    }
}

#[test]
fn pages_of_a_run() {
    // A public number and a secret one, each on page 15 and on page 0.
    let prints = sheet(&[&push(3), &[12, 15], &push(1), &[6, 12, 15], &push(4), &[4], &push(1), &[6, 12, 0]]);
    let mut machine = Machine::new(&CELLS, 5);
    for engine in ["plain", "tagged"] {
        let report = match engine {
            "plain" => machine.run_plain(&prints, 100),
            _ => machine.run_tagged(&prints, &STANDARD_TABLE, 100),
        }
        .unwrap();
        assert_eq!((report.stop, report.lines), (Stop::End, 5));
        let of_page =
            |set, page| machine.view_of_page(set, page).map(|line| line.to_string()).collect::<Vec<_>>();
        assert_eq!(of_page(1, 15), ["15 3 00000000", "15 5 00000001"]);
        assert_eq!(of_page(0, 15), ["15 3 00000000"]);
        assert_eq!(of_page(1, 0), ["0 4 00000000", "0 5 00000001", "0 end 00000000"]);
        assert_eq!(of_page(0, 0), ["0 4 00000000", "0 end 00000000"]);
        assert!((1..15).all(|page| of_page(1, page).is_empty()));
        let all: Vec<_> = machine.lines().map(|line| line.page).collect();
        assert_eq!(all, [15, 15, 0, 0, 0]);
        assert!(machine.view_is_whole(0));
    }
    assert_eq!(machine.rule_memory(), [12, 0, 1, -1, -1, 0, 1]);
    // All pages share the space.
    let mut machine = Machine::new(&CELLS, 2);
    assert_eq!(machine.run_plain(&prints, 100).unwrap().stop, Stop::OutputFull);
    assert_eq!(machine.run_plain(&[12, 15], 100).unwrap().stop, Stop::ValueMissing);
}

#[test]
fn stack_and_stops() {
    let mut machine = Machine::new(&CELLS, 1);
    let call = sheet(&[&push(3), &push(4), &[10], &[3], &[1]]);
    let report = machine.run_plain(&call, 100).unwrap();
    assert_eq!((report.stop, report.place, report.depth), (Stop::ValueMissing, 4, 2));
    let stack: Vec<_> = machine.stack().collect();
    let atom = |number| Atom { number, label: 0 };
    assert_eq!(stack, [Entry::Frame(atom(3)), Entry::Value(atom(3))]);
    let mut stop = |sheet: &[u8], fuel| machine.run_plain(sheet, fuel).unwrap().stop;
    assert_eq!(stop(&[], 0), Stop::End);
    assert_eq!(stop(&push(1), 0), Stop::AllowanceSpent);
    assert_eq!(stop(&[11], 1), Stop::FrameMissing);
    assert_eq!(stop(&[&push(2)[..], &[6]].concat(), 9), Stop::AddressOutside);
    assert_eq!(stop(&[&push(-1)[..], &[8]].concat(), 9), Stop::PlaceOutside);
    assert_eq!(stop(&[&push(-1)[..], &[4]].concat(), 9), Stop::OutputFull);
    assert_eq!(stop(&[&push(-1)[..], &[4]].concat().repeat(2), 9), Stop::OutputFull);
    assert_eq!(stop(&push(1).repeat(257), 999), Stop::StackFull);
    let hidden = sheet(&[&push(1), &[6, 9, 1, 0], &push(7), &push(0), &[7]]);
    assert_eq!(stop(&hidden, 999), Stop::NotAllowed);
}

/// The place, the stop and the stack after so many steps, alike on both engines.
fn stopped(sheet: &[u8], fuel: u64) -> (i64, Stop, Vec<Entry>) {
    let mut machine = Machine::new(&CELLS, 9);
    let plain = machine.run_plain(sheet, fuel).unwrap();
    let stack: Vec<_> = machine.stack().collect();
    let tagged = machine.run_tagged(sheet, &STANDARD_TABLE, fuel).unwrap();
    assert_eq!((plain.place, plain.stop), (tagged.place, tagged.stop));
    assert_eq!(machine.stack().collect::<Vec<_>>(), stack);
    (plain.place, plain.stop, stack)
}

#[test]
fn calls_that_return() {
    // The call at 8 takes 30 and cell 1 and brings back their difference.
    let difference = sheet(&[&push(4), &[8], &[2, 14], &push(30), &push(1), &[6], &push(2), &[13, 2, 1, 4]]);
    let atom = |number, label| Atom { number, label };
    let value = |number, label| Entry::Value(atom(number, label));
    let frame = Entry::FrameDue(atom(9, 0));
    for (fuel, place, stack) in [
        (6, 8, vec![value(30, 0), value(5, 1), value(2, 0)]),
        (7, 2, vec![frame, value(30, 0), value(5, 1)]),
        (8, 3, vec![frame, value(-25, 1)]),
        (9, 9, vec![value(-25, 1)]),
    ] {
        assert_eq!(stopped(&difference, fuel), (place, Stop::AllowanceSpent, stack));
    }
    let mut machine = Machine::new(&CELLS, 2);
    for (fuel, row) in [(7, [13, 0, 0, -1, -1, 0, 0]), (9, [14, 0, 1, 0, -1, 0, 1])] {
        machine.run_tagged(&difference, &STANDARD_TABLE, fuel).unwrap();
        assert_eq!(machine.rule_memory(), row);
    }
    assert_eq!(machine.run_plain(&difference, 10).unwrap().stop, Stop::End);
    assert_eq!(view(&machine, 1), ["0 -25 00000001", "0 end 00000000"]);
    assert_eq!(view(&machine, 0), ["0 end 00000000"]);
}

#[test]
fn hidden_returns() {
    // The call at 10 branches on cell 1 and brings back 9 where it is not 0: owner 0's, and the end is public again.
    let sheet = sheet(&[
        &[&push(7)[..], &[8, 9, 3, 0]].concat(),
        &[&push(0)[..], &[14], &push(9), &[14]].concat(),
        &[&push(1)[..], &[6], &push(2), &[13, 1, 1, 4]].concat(),
    ]);
    let mut machine = Machine::new(&CELLS, 2);
    for engine in ["plain", "tagged"] {
        let report = match engine {
            "plain" => machine.run_plain(&sheet, 100),
            _ => machine.run_tagged(&sheet, &STANDARD_TABLE, 100),
        }
        .unwrap();
        assert_eq!((report.stop, report.steps, report.place_label), (Stop::End, 10, 0));
        assert_eq!(view(&machine, 1), ["0 9 00000001", "0 end 00000000"]);
        assert!(machine.view_is_whole(0));
    }
}

#[test]
fn arguments_of_calls() {
    // So many values and the target, then a call for so many of them.
    let call = |values: usize, arguments: u8, results: u8| {
        let sheet = sheet(&[&push(1).repeat(values), &push(values as i64 + 2), &[13, arguments, results]]);
        stopped(&sheet, 999).1
    };
    for arguments in 0..=15 {
        assert_eq!(call(arguments.into(), arguments, 1), Stop::End);
        if arguments > 0 {
            assert_eq!(call(usize::from(arguments) - 1, arguments, 0), Stop::ValueMissing);
        }
    }
    // The stack may be full: a call does not grow it.
    assert_eq!(call(255, 15, 1), Stop::End);
    assert_eq!(stopped(&[13, 0, 0], 9).1, Stop::ValueMissing);
    // An argument that is a frame.
    let frame = sheet(&[&push(2), &[13, 0, 0], &push(4), &[13, 1, 0]]);
    let atom = |number| Atom { number, label: 0 };
    let stack = vec![Entry::Frame(atom(2)), Entry::Value(atom(4))];
    assert_eq!(stopped(&frame, 9), (3, Stop::ValueMissing, stack));
}

#[test]
fn results_due() {
    let stop = |parts: &[&[u8]]| stopped(&sheet(parts), 99).1;
    // A Call has no result due.
    assert_eq!(stop(&[&push(7), &push(3), &[10], &[14]]), Stop::ResultsDiffer);
    assert_eq!(stop(&[&push(2), &[13, 0, 0], &push(7), &[14]]), Stop::ResultsDiffer);
    assert_eq!(stop(&[&push(2), &[13, 0, 1], &[11]]), Stop::ResultsDiffer);
    // Where they match the run goes on, here to a Pop that finds nothing.
    assert_eq!(stop(&[&push(3), &[13, 0, 0], &[3], &[11]]), Stop::ValueMissing);
    assert_eq!(stop(&[&push(4), &[13, 0, 1], &[3, 3], &push(7), &[14]]), Stop::ValueMissing);
    // A value before a frame, a frame before the results.
    assert_eq!(stop(&[&[14]]), Stop::ValueMissing);
    assert_eq!(stop(&[&push(2), &[13, 0, 1], &[14]]), Stop::ValueMissing);
    assert_eq!(stop(&[&push(7), &[14]]), Stop::FrameMissing);
    assert_eq!(stop(&[&push(7), &push(7), &[14]]), Stop::FrameMissing);
    assert_eq!(stop(&[&push(2), &[13, 0, 1], &push(7), &[11]]), Stop::FrameMissing);
    // The command is not carried out, and no rule was asked.
    let mut machine = Machine::new(&CELLS, 9);
    let sheet = sheet(&[&push(2), &[13, 0, 0], &push(7), &[14]]);
    let report = machine.run_tagged(&sheet, &STANDARD_TABLE, 99).unwrap();
    assert_eq!((report.stop.number(), report.steps, report.place, report.faults), (11, 3, 3, 3));
    assert_eq!(report.stop.to_string(), "results due do not match the return");
    assert_eq!(machine.rule_memory(), [5, 0, -1, -1, -1, 0, 0]);
    let atom = |number| Atom { number, label: 0 };
    assert_eq!(machine.stack().collect::<Vec<_>>(), [Entry::Frame(atom(2)), Entry::Value(atom(7))]);
}

#[test]
fn overflow() {
    // A line, then 2^63-1 and 1 in place of their sum; the Add has been ruled on.
    let sheet = sheet(&[&push(3), &[4], &push(i64::MAX), &push(1), &[1, 4]]);
    let mut machine = Machine::new(&CELLS, 9);
    let stack = [i64::MAX, 1].map(|number| Entry::Value(Atom { number, label: 0 }));
    for engine in ["plain", "tagged"] {
        let report = match engine {
            "plain" => machine.run_plain(&sheet, 100),
            _ => machine.run_tagged(&sheet, &STANDARD_TABLE, 100),
        }
        .unwrap();
        assert_eq!((report.stop, report.steps, report.place), (Stop::Overflow, 4, 4));
        assert_eq!((report.stop.number(), report.stop.to_string()), (9, "result outside 64 bits".into()));
        assert_eq!(machine.stack().collect::<Vec<_>>(), stack);
        assert_eq!(view(&machine, 1), ["0 3 00000000"]);
        assert!(!machine.view_is_whole(1));
    }
    assert_eq!(machine.rule_memory(), [1, 0, 0, 0, -1, 0, 0]);
}

#[test]
fn clearances() {
    assert_eq!(Clearances::default(), Clearances::ALL);
    assert_eq!(Clearances::ALL.words(), &[ALL_OWNERS; 16]);
    assert_eq!(Clearances::new([u32::MAX; 16]), Clearances::ALL);
    let some = Clearances::ALL.with(0, 5).with(15, 0);
    assert_eq!([0, 1, 14, 15].map(|page| some.of(page)), [5, u32::MAX, u32::MAX, 0]);
    let mut sets = [u32::MAX; 16];
    (sets[0], sets[15]) = (5, 0);
    assert_eq!(Clearances::new(sets), some);
    let mut machine = Machine::new(&CELLS, 0);
    assert_eq!(machine.clearances(), Clearances::ALL);
    machine.set_clearances(some);
    assert_eq!(machine.clearances(), some);
}

#[test]
#[should_panic(expected = "there is no page 16")]
fn no_such_page() {
    let _ = Clearances::ALL.with(16, 0);
}

#[test]
fn lines_not_cleared() {
    // A public number and a secret one, both on page 15; the second has been ruled on.
    let sheet = sheet(&[&push(3), &[12, 15], &push(1), &[6, 12, 15]]);
    let mut machine = Machine::new(&CELLS, 3);
    for (clearances, stop) in [
        (Clearances::ALL, Stop::End),
        (Clearances::ALL.with(15, 1), Stop::End),
        (Clearances::ALL.with(14, 0).with(0, 0), Stop::End),
        (Clearances::ALL.with(15, 0), Stop::NotCleared),
        (Clearances::ALL.with(15, !1), Stop::NotCleared),
    ] {
        machine.set_clearances(clearances);
        for engine in ["plain", "tagged"] {
            let report = match engine {
                "plain" => machine.run_plain(&sheet, 100),
                _ => machine.run_tagged(&sheet, &STANDARD_TABLE, 100),
            }
            .unwrap();
            assert_eq!(report.stop, stop);
            if stop == Stop::NotCleared {
                assert_eq!((report.stop.number(), report.steps, report.place, report.lines), (10, 4, 4, 1));
                assert_eq!(view(&machine, 1), ["15 3 00000000"]);
                assert_eq!(machine.stack().collect::<Vec<_>>(), [Entry::Value(CELLS[1])]);
                assert!(!machine.view_is_whole(1));
            }
        }
        assert_eq!(machine.rule_memory(), [12, 0, 1, -1, -1, 0, 1]);
    }
    assert_eq!(Stop::NotCleared.to_string(), "line not cleared for its page");
}

#[test]
fn end_not_cleared() {
    // After a branch on cell 1 the end is owner 0's, for whom page 0 is not cleared; with and without room for its line.
    let sheet = sheet(&[&push(3), &[4], &push(1), &[6, 9, 1, 0]]);
    for room in [2, 1] {
        let mut machine = Machine::new(&CELLS, room);
        machine.set_clearances(Clearances::ALL.with(0, 2));
        for fuel in [5, 6] {
            let report = machine.run_tagged(&sheet, &STANDARD_TABLE, fuel).unwrap();
            assert_eq!((report.stop, report.steps), (Stop::NotCleared, 5));
            assert_eq!((report.place, report.place_label, report.lines), (5, 1, 1));
            assert_eq!(machine.run_plain(&sheet, fuel).unwrap().stop, Stop::NotCleared);
            assert!(!machine.view_is_whole(1));
        }
    }
}

#[test]
fn refusals() {
    let mut machine = Machine::new(&CELLS, 0);
    let mut refused = |sheet: &[u8], fuel| machine.run_plain(sheet, fuel).unwrap_err();
    assert_eq!(refused(&[3; 4097], 0), Refusal::TooManyCommands { offset: 4096 });
    assert_eq!(refused(&[3, 0], 0), Refusal::UnknownCode { offset: 1 });
    assert_eq!(refused(&[3, 9, 0], 0), Refusal::CutOperand { offset: 1 });
    assert_eq!(refused(&[3, 12], 0), Refusal::CutOperand { offset: 1 });
    assert_eq!(refused(&[3, 12, 16], 0), Refusal::Page { offset: 1 });
    assert_eq!(refused(&[12, 15, 15], 0), Refusal::UnknownCode { offset: 2 });
    assert_eq!(refused(&[14, 13, 0], 0), Refusal::CutOperand { offset: 1 });
    assert_eq!(refused(&[14, 13, 16, 0], 0), Refusal::Call { offset: 1 });
    assert_eq!(refused(&[14, 13, 15, 2], 0), Refusal::Call { offset: 1 });
    assert_eq!(refused(&[13, 15, 1, 13, 0xff, 0xff, 0], 1_000_001), Refusal::Call { offset: 3 });
    assert_eq!(refused(&[], 1_000_001), Refusal::Allowance);
    assert_eq!(machine.run_tagged(&[], &[0x17], 0), Err(Refusal::RuleTable { offset: 1 }));
    // Without RetV's rule.
    assert_eq!(machine.run_tagged(&[], &STANDARD_TABLE[..55], 0), Err(Refusal::RuleTable { offset: 55 }));
    machine.set_rule_memory([1, 0, 1, 1, -1, 0, 0]);
    assert_eq!(machine.run_tagged(&[], &STANDARD_TABLE, 0), Err(Refusal::RuleMemory));
    machine.set_rule_memory([1, 0, 1, 1, -1, 0, 1]);
    assert!(machine.run_tagged(&[], &STANDARD_TABLE, 0).is_ok());
    for (row, accepted) in [
        ([4, 0, 1, -1, -1, 0, 1], true),
        ([12, 0, 1, -1, -1, 0, 1], true),
        ([10, 4, 1, -1, -1, 5, 4], true),
        ([13, 4, 1, -1, -1, 5, 4], true),
        ([13, 4, 1, -1, -1, 5, 5], false),
        ([13, 4, 1, 0, -1, 5, 4], false),
        ([14, 4, 1, 2, -1, 2, 5], true),
        ([14, 4, 1, 2, -1, 2, 1], false),
        ([14, 4, 1, -1, -1, 2, 5], false),
        ([15, 0, 1, -1, -1, 0, 1], false),
    ] {
        machine.set_rule_memory(row);
        assert_eq!(machine.run_tagged(&[], &STANDARD_TABLE, 0).is_ok(), accepted, "{row:?}");
    }
    let many = vec![CELLS[0]; 1025];
    assert_eq!(Machine::new(&many, 0).run_plain(&[], 0), Err(Refusal::CellCount { place: 1024 }));
    let refusal = Refusal::ShortSpace(Space::Handler);
    assert_eq!((refusal.number(), refusal.place(), refusal.to_string()), (8, 3, "refused 8 3".into()));
    let refusal = Refusal::Page { offset: 7 };
    assert_eq!((refusal.number(), refusal.place(), refusal.to_string()), (12, 7, "refused 12 7".into()));
    let refusal = Refusal::Call { offset: 7 };
    assert_eq!((refusal.number(), refusal.place(), refusal.to_string()), (14, 7, "refused 14 7".into()));
}

/// Runs on lent memory with these lengths of program, stack and handler, without output space.
fn lend(lengths: [usize; 3], label: i64, clearances: &[i64]) -> [Result<Stop, Refusal>; 2] {
    let [mut program, mut stack, mut handler] = lengths.map(|length| vec![9; length]);
    let (values, labels, rule_memory) = (&mut [1], &mut [label], &mut [0; 7]);
    let by_plain = plain_raw(
        &[3],
        Lent {
            values,
            labels,
            program: &mut program,
            stack: &mut stack,
            numbers: &mut [],
            line_labels: &mut [],
            kinds: &mut [],
            pages: &mut [],
        },
        clearances,
        9,
    );
    let lent = Lent {
        values,
        labels,
        program: &mut program,
        stack: &mut stack,
        numbers: &mut [],
        line_labels: &mut [],
        kinds: &mut [],
        pages: &mut [],
    };
    let tags = Tags { table: &STANDARD_TABLE, rule_memory, handler: &mut handler };
    let by_tags = tagged_raw(&[3], lent, tags, clearances, 9);
    [by_plain, by_tags].map(|raw| raw.named().map(|report| report.stop))
}

#[test]
fn lent_memory() {
    let handler = 2 * handler_count(&STANDARD_TABLE).unwrap();
    assert_eq!(handler_count(&[]), None);
    let lend = |lengths, label| lend(lengths, label, Clearances::ALL.words());
    assert_eq!(lend([2, 768, handler], 0), [Ok(Stop::ValueMissing); 2]);
    assert_eq!(lend([1, 768, handler], 0), [Err(Refusal::ShortSpace(Space::Program)); 2]);
    assert_eq!(lend([2, 767, handler], 0), [Err(Refusal::ShortSpace(Space::Stack)); 2]);
    assert_eq!(lend([2, 768, handler - 1], 0)[1], Err(Refusal::ShortSpace(Space::Handler)));
    assert_eq!(lend([2, 768, handler], -1), [Err(Refusal::LabelOutside { cell: 0 }); 2]);
}

#[test]
fn clearance_words() {
    let spaces = [2, 768, 2 * handler_count(&STANDARD_TABLE).unwrap()];
    let all = [ALL_OWNERS; 16];
    let with = |page: usize, word: i64| {
        let mut words = all;
        words[page] = word;
        words
    };
    for page in [0, 1, 15] {
        let refused = [Err(Refusal::Clearance { page: page as u64 }); 2];
        for word in [-1, ALL_OWNERS + 1, i64::MIN, i64::MAX] {
            assert_eq!(lend(spaces, 0, &with(page, word)), refused);
        }
        assert_eq!(lend(spaces, 0, &with(page, 0)), [Ok(Stop::ValueMissing); 2]);
    }
    // Another number of words goes before a word of them.
    let refused = [Err(Refusal::Clearance { page: 16 }); 2];
    for words in [&[][..], &all[1..], &with(0, -1)[..15], &[ALL_OWNERS; 17], &[-1; 17]] {
        assert_eq!(lend(spaces, 0, words), refused);
    }
    // After the cells, before the spaces.
    assert_eq!(lend(spaces, -1, &[]), [Err(Refusal::LabelOutside { cell: 0 }); 2]);
    assert_eq!(lend([1, 0, 0], 0, &with(3, -1)), [Err(Refusal::Clearance { page: 3 }); 2]);
    let refusal = Refusal::Clearance { page: 3 };
    assert_eq!((refusal.number(), refusal.place(), refusal.to_string()), (13, 3, "refused 13 3".into()));
}

#[test]
fn pages() {
    assert_eq!(page(&[]), b"job 0\n");
    assert_eq!(page(&[0x43, 0]), b"refused 2 0\n");
    assert_eq!(page(&[0x43, 12, 16]), b"refused 12 0\n");
    assert_eq!(page(&[0x43, 13, 0, 2]), b"refused 14 0\n");
    assert_eq!(page(&[&[0x43][..], &push(-5), &[4]].concat()), b"0 -5 00000000\n0 end 00000000\n");
    assert_eq!(page(&[&[0x43][..], &push(-5), &[12, 15]].concat()), b"15 -5 00000000\n0 end 00000000\n");
    let mut buffer = vec![1; PAGE_LIMIT - 1];
    assert_eq!(page_into(&[], &mut buffer), Err(ShortBuffer));
    assert!(buffer.iter().all(|&byte| byte == 1));
}

#[test]
fn texts() {
    let text = "Push 1\nLoad\nPush 0\nLoad\nAdd\nOutput\n";
    let bytes = sheet(&[&push(1), &[6], &push(0), &[6, 1, 4]]);
    assert_eq!(assemble(text).as_ref(), Ok(&bytes));
    assert_eq!(list(&bytes).as_deref(), Ok(text));
    let relist = |text| assemble(text).and_then(|sheet| list(&sheet));
    assert_eq!(relist("Push -007\nBnz -0").as_deref(), Ok("Push -7\nBnz 0\n"));
    assert_eq!(assemble("OutputTo 15\nOutput"), Ok(vec![12, 15, 4]));
    assert_eq!(relist("OutputTo 007\nOutputTo -0").as_deref(), Ok("OutputTo 7\nOutputTo 0\n"));
    assert_eq!(assemble("CallN 2 1\nRetV\nCall"), Ok(vec![13, 2, 1, 14, 10]));
    assert_eq!(relist("CallN 015 -0\nCallN 0 01").as_deref(), Ok("CallN 15 0\nCallN 0 1\n"));
    assert_eq!(relist("").as_deref(), Ok(""));
    let longest = "Push -9223372036854775808\n".repeat(4096);
    let sheet = assemble(&longest).unwrap();
    assert_eq!((sheet.len(), longest.len()), (SHEET_LIMIT, TEXT_LIMIT));
    assert!(list(&sheet).as_ref() == Ok(&longest));
}

#[test]
fn lent_buffers() {
    let short = Err(Refusal::ShortSpace(Space::Buffer));
    let mut buffer = [1; 6];
    assert_eq!(assemble_into(b"Bnz -2", &mut buffer[..2]), short);
    assert_eq!(list_into(&[9, 7, 0], &mut buffer[..5]), short);
    assert_eq!(buffer, [1; 6]);
    assert_eq!(assemble_into(b"Bnz -2", &mut buffer[..3]), Ok(3));
    assert_eq!(buffer, [9, 0xfe, 0xff, 1, 1, 1]);
    assert_eq!(list_into(&[9, 7, 0], &mut buffer), Ok(6));
    assert_eq!(&buffer, b"Bnz 7\n");
}

#[test]
fn refused_texts() {
    let refused = |text: &str| assemble(text).unwrap_err();
    assert_eq!(refused("Add\nadd"), Refusal::BadLine { line: 2 });
    assert_eq!(refused("Bnz 32768"), Refusal::OperandOutside { line: 1 });
    assert_eq!(refused("Output\nOutputTo 16"), Refusal::OperandOutside { line: 2 });
    assert_eq!(refused("Output 1"), Refusal::BadLine { line: 1 });
    for operands in ["", " 2", " 2 1 0", " 2  1", " 2 1 ", " 16 x", " x 2"] {
        assert_eq!(refused(&format!("CallN{operands}")), Refusal::BadLine { line: 1 }, "{operands}");
    }
    for operands in [" 16 0", " 15 2", " -1 1", " 0 -1", " 99999999999999999999 1"] {
        assert_eq!(refused(&format!("CallN{operands}")), Refusal::OperandOutside { line: 1 }, "{operands}");
    }
    assert_eq!(refused("RetV 1"), Refusal::BadLine { line: 1 });
    assert_eq!(refused(&"Add\n".repeat(4097)), Refusal::TooManyLines { line: 4097 });
    assert_eq!(list(&[3; 4097]), Err(Refusal::TooManyCommands { offset: 4096 }));
    assert_eq!(list(&[3, 0]), Err(Refusal::UnknownCode { offset: 1 }));
    assert_eq!(list(&[3, 9, 0]), Err(Refusal::CutOperand { offset: 1 }));
    assert_eq!(list(&[3, 12, 0xff]), Err(Refusal::Page { offset: 1 }));
    assert_eq!(list(&[3, 13, 1, 2]), Err(Refusal::Call { offset: 1 }));
    for (refusal, message) in [
        (refused("\n"), "refused 10 1: line 1 is not a command with its operands"),
        (refused("Add\nBnz -32769"), "refused 11 2: line 2 has an operand outside its command's range"),
        (refused(&"Add\n".repeat(5000)), "refused 1 4097: line 4097 is one too many"),
        (assemble_into(b"Add", &mut []).unwrap_err(), "refused 8 4: the buffer is too short"),
        (list(&[15]).unwrap_err(), "refused 2 0"),
        (list(&[13, 16]).unwrap_err(), "refused 3 0"),
        (list(&[13, 16, 0]).unwrap_err(), "refused 14 0"),
    ] {
        assert_eq!(refusal.to_string(), message);
    }
}
