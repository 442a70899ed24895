//! Texts and sheets at the edges of what is read and listed, each with what it comes to (document 02, U3; U4
//! for OutputTo, U6 for CallN and RetV). The model's tests hold the model to them, `differential text` the engines.

use crate::sheet::{encode, Command, Command::*, COMMANDS};
use crate::Refusal;

/// A text with its sheet's commands, or a sheet with its text; or the refusal.
pub type Edge<T> = (Vec<u8>, Result<T, Refusal>);

const LEAST: &str = "-9223372036854775808";
const MOST: &str = "9223372036854775807";
const BELOW: &str = "-9223372036854775809";
const ABOVE: &str = "9223372036854775808";

/// Texts whose first line is no command: 10 at 1.
#[rustfmt::skip]
const BAD_LINES: &[&str] = &[
    // an unknown name
    "\n", "\nAdd", "push 1", "PUSH 1", "add", "aDD", "Pus 1", "Pushx 1", "Push1", "Out", "Outputs", "Ad", "Adds", "A", "Bn 1",
    "Bnzz 1", "Re", "Rett", "AddSub", "Or", "Dup", "05 1", "1", "-1", " ", "  ", " Add", " Push 1", "Add;", "#Add",
    "outputto 3", "Outputto 3", "outputTo 3", "OUTPUTTO 3", "OutputT 3", "OutputToo 3", "OutputTo3", "To 3", "0c 3",
    "calln 2 1", "Calln 2 1", "callN 2 1", "CALLN 2 1", "Cal 2 1", "CallNN 2 1", "CallN2 1", "CallV 2 1", "0d 2 1", "retv", "Retv",
    "retV", "RETV", "RetN", "RetVV", "RetV1", "CallRet", "0e",
    // operands too few or too many
    "Push", "Push\n", "Bnz", "Bnz\nBnz 1", "Push 1 2", "Push 1 ", "Push  1", "Push 1  ", "Push  ", "Push - 1", "Bnz 1 2",
    "Bnz 1 ", "Bnz  1", "Add 1", "Add 0", "Add ", "Add  ", "Ret -", "Push 1 Add", "Add Sub", "Add # sum",
    "OutputTo", "OutputTo\n", "Output 3", "Output 0", "Output To 3", "OutputTo 1 2", "OutputTo 1 ", "OutputTo  1",
    "CallN", "CallN\n", "CallN 2", "CallN 33", "CallN 2\n1", "CallN 2 1 0", "CallN 2 1 1", "CallN 2 1 ", "CallN  2 1", "CallN 2  1",
    "CallN 2 1  ", "Call N 2 1", "Call 2 1", "Call 1 0", "Call 1", "RetV 1", "RetV 0", "RetV ", "Ret V", "Ret 1", "CallN 2 1 RetV",
    // an operand badly written
    "Push ", "Push -", "Push +1", "Push +0", "Push --1", "Push 1-", "Push 1-1", "Push -+1", "Push 0x1", "Push 1.0", "Push 1,0",
    "Push 1_0", "Push 1e3", "Push one", "Push a", "Push 1a", "Push a1", "Push :", "Push /", "Push 1:", "Push 1/", "Push -:",
    "Bnz ", "Bnz -", "Bnz +1", "OutputTo ", "OutputTo -", "OutputTo +1", "OutputTo 0x1", "OutputTo f", "OutputTo 1:",
    "CallN ", "CallN  ", "CallN 2 ", "CallN  1", "CallN +2 1", "CallN 2 +1", "CallN - 1", "CallN 2 -", "CallN --2 1", "CallN 2 --1",
    "CallN f 1", "CallN 2 f", "CallN 0x2 1", "CallN 2 0x1", "CallN 2: 1", "CallN 2 1:", "CallN 2,1", "CallN 2, 1", "CallN 2/1",
    "CallN 2 one", "CallN 2 \u{2212}0",
    "Push \u{2212}1", "Push \u{661}", "Push \u{ff11}", "Push 1\u{a0}",
    // other blanks than one space, other ends than a newline
    "\t", "\r", "\r\n", "\r\nAdd", "Push\t1", "Push 1\t", "Push \t1", "Push\r1", "\tAdd", "Add\t", "Add\r", "Add\r\n", "Add\rSub",
    "Push 1\r\n", "Add\u{b}", "Add\u{c}", "Push\u{a0}1", "Add\u{85}", "Add\u{2028}Sub", "\u{feff}Add", "OutputTo\t1",
    "OutputTo 1\r\n", "CallN\t2 1", "CallN 2\t1", "CallN 2 1\t", "CallN 2 1\r\n", "RetV\r\n", "RetV\t", "\tRetV",
    // 10 before 11
    "Push 9223372036854775808 1", "Push 1 9223372036854775808", "Push 9223372036854775808 ", "Push 9223372036854775808x",
    "Push  9223372036854775808", "Push +9223372036854775808", "Bnz 32768 1", "Bnz 32768\t", "Add 9223372036854775808",
    "OutputTo 16 1", "OutputTo 1 16", "OutputTo 16 ", "OutputTo  16", "OutputTo 16x", "OutputTo -1 1", "Output 16",
    "CallN 16", "CallN 241", "CallN 16 1 1", "CallN 16 2 0", "CallN 16 +1", "CallN 16 ", "CallN 16 x", "CallN +1 2", "CallN x 2",
    "CallN  2", "CallN -1 -", "CallN - -1", "CallN 16  1", "CallN 16 1 ", "CallN 16 2\t", "CallN 9223372036854775808 one", "Call 16 2",
    // 0 and what is not ASCII
    "\0", "Add\0", "\0Add", "Push \0", "Push 1\0", "Push\x001", "Push -\0", "\u{c9}", "Add\u{e9}",
];

/// The same, of bytes that are no UTF-8; some differ from a command's by their highest bit.
const BAD_BYTES: &[&[u8]] =
    &[b"\xff", b"Add\xff", b"\x80\n", b"Push \xff", b"Push 1\xb2", b"Push\xa01", b"\xc1dd"];

/// Every command, and their normal text.
#[rustfmt::skip]
const EVERY: [Command; 14] =
    [Add, Sub, Pop, Output, Push(5), Load, Store, Jump, Bnz(9), Call, Ret, OutputTo(12), CallN(2, 1), RetV];
const EVERY_TEXT: &str =
    "Add\nSub\nPop\nOutput\nPush 5\nLoad\nStore\nJump\nBnz 9\nCall\nRet\nOutputTo 12\nCallN 2 1\nRetV\n";

/// Texts, each with the commands of its sheet.
pub fn texts() -> Vec<Edge<Vec<Command>>> {
    let mut edges = readable();
    edges.extend(BAD_LINES.iter().map(|&text| refused(text, 10, 1)));
    edges.extend(BAD_BYTES.iter().map(|&text| refused(text, 10, 1)));
    edges.extend(outside());
    edges.extend(later_lines());
    edges.extend(many_lines());
    edges
}

fn read(text: impl Into<Vec<u8>>, commands: &[Command]) -> Edge<Vec<Command>> {
    (text.into(), Ok(commands.to_vec()))
}

fn refused<T>(input: impl Into<Vec<u8>>, number: u64, place: usize) -> Edge<T> {
    (input.into(), Err(Refusal::new(number, place)))
}

fn readable() -> Vec<Edge<Vec<Command>>> {
    let zeros = "0".repeat(500);
    vec![
        read("", &[]),
        read("Add\n", &[Add]),
        read("Add", &[Add]),
        read("Push 1\nRet", &[Push(1), Ret]),
        read(EVERY_TEXT, &EVERY),
        read("OutputTo 0\nOutputTo 15\nOutput", &[OutputTo(0), OutputTo(15), Output]),
        read("OutputTo -0\nOutputTo 007\nOutputTo 010", &[OutputTo(0), OutputTo(7), OutputTo(10)]),
        read("OutputTo -000\nOutputTo 0015\n", &[OutputTo(0), OutputTo(15)]),
        read(format!("OutputTo {zeros}15\nOutputTo -{zeros}"), &[OutputTo(15), OutputTo(0)]),
        read(
            "CallN 0 0\nCallN 15 1\nCallN 0 1\nCallN 15 0",
            &[CallN(0, 0), CallN(15, 1), CallN(0, 1), CallN(15, 0)],
        ),
        read("CallN 1 1\nCallN 1 0\nCall\n", &[CallN(1, 1), CallN(1, 0), Call]),
        read("CallN -0 -0\nCallN 007 01\nCallN 010 00", &[CallN(0, 0), CallN(7, 1), CallN(10, 0)]),
        read("CallN -000 1\nCallN 0015 -00\n", &[CallN(0, 1), CallN(15, 0)]),
        read(format!("CallN {zeros}15 {zeros}1\nCallN -{zeros} -{zeros}"), &[CallN(15, 1), CallN(0, 0)]),
        read("RetV", &[RetV]),
        read("RetV\nRet\n", &[RetV, Ret]),
        read("Push 0\nPush -1\nPush 10\nPush -100", &[Push(0), Push(-1), Push(10), Push(-100)]),
        read("Push -0\nBnz -0\n", &[Push(0), Bnz(0)]),
        read("Push 007\nPush -007\nPush 010\nBnz 010", &[Push(7), Push(-7), Push(10), Bnz(10)]),
        read("Push 000\nPush -000\nBnz 00\n", &[Push(0), Push(0), Bnz(0)]),
        read(format!("Push {MOST}\nPush {LEAST}\n"), &[Push(i64::MAX), Push(i64::MIN)]),
        read("Bnz 32767\nBnz -32768\n", &[Bnz(i16::MAX), Bnz(i16::MIN)]),
        read(format!("Push {zeros}"), &[Push(0)]),
        read(format!("Push {zeros}7\nPush -{zeros}7\n"), &[Push(7), Push(-7)]),
        read(format!("Push {zeros}{MOST}\nBnz -{zeros}32768"), &[Push(i64::MAX), Bnz(i16::MIN)]),
    ]
}

/// Operands outside their command's range: 11 at 1.
#[rustfmt::skip]
fn outside() -> Vec<Edge<Vec<Command>>> {
    let (zeros, nines) = ("0".repeat(500), "9".repeat(500));
    // 2^64 and 2^128, which would be 0 in as many bits, and 2^64 + 1.
    let wrapping =
        ["18446744073709551616", "18446744073709551617", "340282366920938463463374607431768211456"];
    let pushes = [ABOVE, BELOW, "10000000000000000000", &nines].into_iter().chain(wrapping);
    let branches = ["32768", "-32769", "65535", "65536", "65537", "99999", MOST, LEAST, ABOVE, &nines];
    let lines = pushes.map(|operand| format!("Push {operand}"));
    let lines = lines.chain(branches.map(|operand| format!("Bnz {operand}")));
    // In eight bits 256 would be 0, 271 and -241 would be 15.
    let pages = ["16", "-1", "017", "-015", "20", "127", "128", "255", "256", "271", "-241", "-256", "65536"];
    let pages = pages.into_iter().chain([wrapping[0], MOST, LEAST, ABOVE, BELOW, &nines]);
    let lines = lines.chain(pages.map(|operand| format!("OutputTo {operand}")));
    // The first too large, the second, both; what a word of 8 or 64 bits would make of them; 33 and 241 as one word.
    let calls = [
        ["16", "1"], ["16", "0"], ["15", "2"], ["0", "2"], ["-1", "0"], ["0", "-1"], ["16", "2"], ["-1", "-1"], ["017", "1"],
        ["1", "02"], ["2", "2"], ["-1", "1"], ["2", "-1"], ["1", "16"], ["0", "16"], ["1", "15"], ["33", "1"], ["241", "0"], ["255", "1"], ["256", "1"], ["1", "256"],
        ["1", "257"], ["-241", "1"], ["1", "-255"], ["271", "257"], [wrapping[0], "1"], ["1", wrapping[1]], [MOST, "1"], ["1", LEAST],
        [ABOVE, "1"], ["1", BELOW], [&nines, "1"], ["1", &nines], [&nines, &nines],
    ];
    let lines = lines.chain(calls.map(|[arguments, results]| format!("CallN {arguments} {results}")));
    let longer = [
        format!("Push -{nines}"),
        format!("Push {zeros}{ABOVE}"),
        format!("Bnz -{zeros}32769"),
        format!("OutputTo {zeros}16"),
        format!("OutputTo -{zeros}1"),
        format!("CallN {zeros}16 1"),
        format!("CallN 15 {zeros}2"),
        format!("CallN -{zeros}1 0"),
    ];
    lines.chain(longer).map(|line| refused(line, 11, 1)).collect()
}

/// Refusals of other lines than the first, which is the first that is at fault.
fn later_lines() -> Vec<Edge<Vec<Command>>> {
    vec![
        refused("Add\n\n", 10, 2),
        refused("Add\n\nSub\n", 10, 2),
        refused("Add\nSub\nadd", 10, 3),
        refused(format!("Add\nPush {ABOVE}"), 11, 2),
        refused(format!("Push {ABOVE}\nadd\n"), 11, 1),
        refused(format!("add\nPush {ABOVE}\n"), 10, 1),
        refused("Output\nOutputTo 16\nOutput 3\n", 11, 2),
        refused("Output\nOutput 3\nOutputTo 16\n", 10, 2),
        refused(format!("Push 1\nBnz 32768\nBnz -32769\nPush {BELOW}\n"), 11, 2),
        refused("CallN 15 1\nCallN 16 1\nCallN 2\n", 11, 2),
        refused("CallN 15 1\nCallN 2\nCallN 16 1\n", 10, 2),
        refused("RetV\nCallN 15 2\nOutputTo 16\n", 11, 2),
        refused("RetV\nRetV\nretv\nCallN 15 2", 10, 3),
    ]
}

/// So many lines `Add`, with other text in place of the last newline.
fn adds(lines: usize, last: &str) -> String {
    "Add\n".repeat(lines - 1) + "Add" + last
}

fn many_lines() -> Vec<Edge<Vec<Command>>> {
    let all = vec![Add; COMMANDS];
    vec![
        read(adds(COMMANDS, "\n"), &all),
        read(adds(COMMANDS, ""), &all),
        read(format!("Push {LEAST}\n").repeat(COMMANDS), &[Push(i64::MIN); COMMANDS]),
        refused(adds(4097, "\n"), 1, 4097),
        refused(adds(4097, ""), 1, 4097),
        refused(adds(5000, "\n"), 1, 4097),
        // The 4,097th line is one too many, whatever it holds.
        refused(adds(COMMANDS, "\n\n"), 1, 4097),
        refused(adds(COMMANDS, "\nadd\n"), 1, 4097),
        refused(adds(COMMANDS, "\n "), 1, 4097),
        refused(adds(COMMANDS, &format!("\nPush {ABOVE}\n")), 1, 4097),
        refused(adds(COMMANDS, "\nOutputTo 16\n"), 1, 4097),
        refused(adds(COMMANDS, "\nCallN 16 2\n"), 1, 4097),
        refused(adds(COMMANDS, "\nRetV\n"), 1, 4097),
        // A line before it is refused first.
        refused(format!("Add\nAdd\nAdd\nadd\n{}", adds(4093, "\n")), 10, 4),
        refused(format!("Add\nAdd\nAdd\nBnz 32768\n{}", adds(4093, "\n")), 11, 4),
        refused(adds(4095, " \nAdd\nAdd\n"), 10, 4095),
        refused(adds(4096, " \nAdd\n"), 10, 4096),
        refused(adds(4095, "\nBnz 32768\nAdd\n"), 11, 4096),
        refused(adds(4095, "\nOutputTo 16\nAdd\n"), 11, 4096),
        refused(adds(4095, "\nCallN 15 2\nAdd\n"), 11, 4096),
        refused(adds(4095, "\nCallN 15\nAdd\n"), 10, 4096),
    ]
}

/// Sheets, each with its normal text.
pub fn sheets() -> Vec<Edge<String>> {
    fn listed(commands: &[Command], text: impl Into<String>) -> Edge<String> {
        (encode(commands), Ok(text.into()))
    }
    let many = |count: usize, last: &[u8]| [&vec![3; count], last].concat();
    vec![
        listed(&[], ""),
        listed(&EVERY, EVERY_TEXT),
        listed(&[OutputTo(0), OutputTo(9), OutputTo(15)], "OutputTo 0\nOutputTo 9\nOutputTo 15\n"),
        // A page that is another command's code.
        (vec![0x0c, 4, 4, 0x0c, 0x0c, 3], Ok("OutputTo 4\nOutput\nOutputTo 12\nPop\n".into())),
        listed(&[OutputTo(15); COMMANDS], "OutputTo 15\n".repeat(COMMANDS)),
        listed(&[CallN(0, 0), CallN(15, 1), CallN(9, 1)], "CallN 0 0\nCallN 15 1\nCallN 9 1\n"),
        (vec![0x0d, 2, 1, 0x0e], Ok("CallN 2 1\nRetV\n".into())),
        (vec![0x0d, 15, 0, 0x0d, 0, 1], Ok("CallN 15 0\nCallN 0 1\n".into())),
        // Operands that are other commands' codes.
        (vec![0x0d, 0x0d, 0, 0x0d, 0x0e, 1, 0x0d, 5, 0], Ok("CallN 13 0\nCallN 14 1\nCallN 5 0\n".into())),
        (vec![0x0c, 0x0d, 0x0c, 0x0e, 0x0e], Ok("OutputTo 13\nOutputTo 14\nRetV\n".into())),
        listed(&[CallN(15, 1); COMMANDS], "CallN 15 1\n".repeat(COMMANDS)),
        listed(&[RetV; COMMANDS], "RetV\n".repeat(COMMANDS)),
        listed(&[Push(0), Push(9), Push(10), Push(-10)], "Push 0\nPush 9\nPush 10\nPush -10\n"),
        listed(&[Push(i64::MAX), Push(i64::MIN)], format!("Push {MOST}\nPush {LEAST}\n")),
        listed(&[Bnz(0), Bnz(-1), Bnz(i16::MAX), Bnz(i16::MIN)], "Bnz 0\nBnz -1\nBnz 32767\nBnz -32768\n"),
        (vec![5, 0xfe, 0xff, 0xff, 0xff, 0xff, 0xff, 0xff, 0xff, 9, 0, 1], Ok("Push -2\nBnz 256\n".into())),
        listed(&[Ret; COMMANDS], "Ret\n".repeat(COMMANDS)),
        listed(&[Push(i64::MIN); COMMANDS], format!("Push {LEAST}\n").repeat(COMMANDS)),
        refused(many(4097, &[]), 1, 4096),
        refused(many(4096, &[0]), 1, 4096),
        refused(many(4096, &[5]), 1, 4096),
        refused(encode(&[Push(0); 4097]), 1, 36_864),
        refused([0], 2, 0),
        refused([0x0f], 2, 0),
        refused([0x0c, 0, 0x0f], 2, 2),
        refused([0x0d, 15, 1, 0x0f], 2, 3),
        refused([0x0e, 0x0f, 0x0d, 16, 0], 2, 1),
        refused([3, 0xff, 5], 2, 1),
        refused(many(4095, &[0x41, 3]), 2, 4095),
        refused([encode(&[Push(1), Bnz(2)]), vec![0]].concat(), 2, 12),
        refused([5], 3, 0),
        refused([3, 5, 1, 2, 3, 4, 5, 6, 7], 3, 1),
        refused([9], 3, 0),
        refused([3, 3, 9, 0], 3, 2),
        refused(many(4095, &[9, 0]), 3, 4095),
        // A page that is cut off is 3, one over 15 is 12.
        refused([0x0c], 3, 0),
        refused([0x0c, 15, 0x0c], 3, 2),
        refused(many(4095, &[0x0c]), 3, 4095),
        refused([0x0c, 16], 12, 0),
        refused([0x0c, 0x7f], 12, 0),
        refused([0x0c, 0x80], 12, 0),
        refused([0x0c, 0xff], 12, 0),
        refused([3, 0x0c, 0x10, 4], 12, 1),
        refused(many(4095, &[0x0c, 16]), 12, 4095),
        // Operands of a call: 3 where one is cut off, 14 where either is out of range. 00 10 has the word of CallN 1 0.
        refused([0x0d], 3, 0),
        refused([0x0d, 2], 3, 0),
        refused([0x0d, 16], 3, 0),
        refused([0x0d, 0xff], 3, 0),
        refused([0x0d, 2, 1, 0x0d, 2], 3, 3),
        refused(many(4095, &[0x0d, 16]), 3, 4095),
        refused([0x0d, 16, 0], 14, 0),
        refused([0x0d, 16, 1], 14, 0),
        refused([0x0d, 0, 2], 14, 0),
        refused([0x0d, 15, 2], 14, 0),
        refused([0x0d, 0, 0x10], 14, 0),
        refused([0x0d, 0, 0x11], 14, 0),
        refused([0x0d, 1, 0x10], 14, 0),
        refused([0x0d, 0x7f, 1], 14, 0),
        refused([0x0d, 0x80, 1], 14, 0),
        refused([0x0d, 15, 0x80], 14, 0),
        refused([0x0d, 15, 0xff], 14, 0),
        refused([0x0d, 0xff, 1], 14, 0),
        refused([0x0d, 0xff, 0xff], 14, 0),
        refused([3, 0x0d, 0x10, 0, 4], 14, 1),
        refused([0x0e, 0x0d, 15, 1, 0x0d, 0, 2], 14, 4),
        refused(many(4095, &[0x0d, 16, 0]), 14, 4095),
        // The first command that is at fault, whatever comes later.
        refused([0x0d, 16, 1, 0], 14, 0),
        refused([0x0d, 0, 2, 5], 14, 0),
        refused([0x0d, 16, 1, 0x0c, 16], 14, 0),
        refused([0x0c, 16, 0x0d, 16, 1], 12, 0),
        refused([0x0d, 2, 1, 0x0d, 2, 2, 0x0d, 16, 1], 14, 3),
        refused([0, 0x0d, 16, 1], 2, 0),
        refused([encode(&[Push(1)]), vec![0x0d, 0, 2, 0x0d]].concat(), 14, 9),
        refused([0x0c, 16, 0], 12, 0),
        refused([0x0c, 16, 5], 12, 0),
        refused([0x0c, 0, 0x0c, 17, 0x0c, 16], 12, 2),
        refused([0, 0x0c, 16], 2, 0),
        refused([encode(&[Push(1)]), vec![0x0c, 0x10, 0x0c]].concat(), 12, 9),
        // 1 goes before 2, 3, 12 and 14 of the same command.
        refused(many(4096, &[0x0d]), 1, 4096),
        refused(many(4096, &[0x0d, 0]), 1, 4096),
        refused(many(4096, &[0x0d, 16, 2]), 1, 4096),
        refused(many(4096, &[0x0e]), 1, 4096),
        refused(encode(&[CallN(15, 1); 4097]), 1, 12_288),
        refused(many(4095, &[0x0d, 0, 2, 3]), 14, 4095),
        refused(many(4096, &[0x0c]), 1, 4096),
        refused(many(4096, &[0x0c, 16]), 1, 4096),
        refused(encode(&[OutputTo(15); 4097]), 1, 8192),
        refused(many(4095, &[0x0c, 16, 3]), 12, 4095),
        refused([encode(&[Push(1)]), vec![9, 0]].concat(), 3, 9),
    ]
}
