//! The sheets that are measured. Each goes round until its allowance is spent, so that all engines take the same steps.

use crate::safe::Clearances;
use differential::random::Random;
use model::engine::{Lent, CLEARED_FOR_ALL};
use model::sheet::{encode, Command, Command::*, COMMANDS, PAGES};
use model::Atom;

pub struct Workload {
    pub name: &'static str,
    pub sheet: Vec<u8>,
    pub cells: Vec<Atom>,
    pub clearances: Clearances,
    /// Lines that fit.
    pub lines: usize,
    /// The same work for one round of the loop in Lua, and how many steps of the sheet that is.
    pub lua: Option<Lua>,
}

pub struct Lua {
    pub setup: &'static str,
    pub round: &'static str,
    pub steps: u64,
}

impl Workload {
    /// Fresh memory for a run, the handler's words in place. The output space is written to once, so that the time does
    /// not hold the system's work of giving its pages.
    pub fn lent(&self, handler: &[i64]) -> Lent {
        let mut lent = Lent::roomy(&self.cells, self.lines);
        for run in [&mut lent.numbers, &mut lent.line_labels, &mut lent.kinds, &mut lent.pages] {
            run.fill(-7);
        }
        lent.handler = handler.to_vec();
        lent
    }
}

fn hidden(number: i64) -> Atom {
    Atom { number, label: 1 }
}

/// Sums on the stack, with a branch back.
fn arithmetic() -> Workload {
    let sheet = [Push(0), Push(3), Add, Push(7), Sub, Push(5), Add, Push(2), Sub, Push(1), Bnz(-9)];
    Workload {
        name: "arithmetic",
        sheet: encode(&sheet),
        cells: vec![],
        clearances: CLEARED_FOR_ALL,
        lines: 0,
        lua: Some(Lua {
            setup: "local a = 0",
            round: "a = 3 + a; a = 7 - a; a = 5 + a; a = 2 - a",
            steps: 10,
        }),
    }
}

/// A walk through cells that each hold the address of the next one; cell 0 holds the walker's. Each cell that it
/// comes to is read and written.
pub fn walk(count: usize) -> Workload {
    let sheet = [
        &[Push(0), Load, Load, Push(0), Store][..],
        &[Push(0), Load, Load, Push(0), Load, Store],
        &[Push(1), Bnz(-12)],
    ];
    let next = |cell: usize| 1 + (cell + 6) % (count - 1);
    Workload {
        name: "cell walk",
        sheet: encode(&sheet.concat()),
        cells: (0..count).map(|cell| hidden(if cell == 0 { 1 } else { next(cell) as i64 })).collect(),
        clearances: CLEARED_FOR_ALL,
        lines: 0,
        lua: Some(Lua {
            setup: "local c = {[0] = 1}; for i = 1, 1023 do c[i] = 1 + (i + 6) % 1023 end",
            round: "c[0] = c[c[0]]; c[c[0]] = c[c[0]]",
            steps: 13,
        }),
    }
}

fn calls() -> Workload {
    let sheet = [Push(1), Push(5), Call, Push(0), Jump, Pop, Ret];
    Workload {
        name: "calls",
        sheet: encode(&sheet),
        cells: vec![],
        clearances: CLEARED_FOR_ALL,
        lines: 0,
        lua: Some(Lua { setup: "local function f(x) end", round: "f(1)", steps: 7 }),
    }
}

/// Calls with two arguments that bring back their difference, which the next one takes.
fn returns() -> Workload {
    let sheet = [Push(0), Push(3), Push(6), CallN(2, 1), Push(1), Bnz(-4), Sub, RetV];
    Workload {
        name: "returns",
        sheet: encode(&sheet),
        cells: vec![],
        clearances: CLEARED_FOR_ALL,
        lines: 0,
        lua: Some(Lua {
            setup: "local a = 0; local function f(x, y) return y - x end",
            round: "a = f(a, 3)",
            steps: 7,
        }),
    }
}

/// Calls that branch on hidden numbers, one way and the other; each return lowers the place's label again.
fn hidden_branches() -> Workload {
    let caller = [Push(0), Load, Push(10), Call, Push(1), Load, Push(10), Call, Push(0), Jump];
    let callee = [Bnz(3), Push(5), Pop, Ret];
    Workload {
        name: "hidden branches",
        sheet: encode(&[&caller[..], &callee].concat()),
        cells: vec![hidden(1), hidden(0)],
        clearances: CLEARED_FOR_ALL,
        lines: 0,
        lua: Some(Lua {
            setup: "local c = {1, 0}; local function f(x) if x == 0 then local y = 5 end end",
            round: "f(c[1]); f(c[2])",
            steps: 16,
        }),
    }
}

fn lines() -> Workload {
    Workload {
        name: "lines",
        sheet: encode(&[Push(7), Output, Push(1), Bnz(-3)]),
        cells: vec![],
        clearances: CLEARED_FOR_ALL,
        lines: 300_000,
        lua: Some(Lua { setup: "local out = {}", round: "out[#out + 1] = 7", steps: 4 }),
    }
}

/// The same step for step, with three of four lines by OutputTo.
fn pages() -> Workload {
    let sheet = [
        [Push(7), Output, Push(1), Bnz(1)],
        [Push(7), OutputTo(0), Push(1), Bnz(1)],
        [Push(7), OutputTo(1), Push(1), Bnz(1)],
        [Push(7), OutputTo(15), Push(1), Bnz(-15)],
    ];
    Workload {
        name: "pages",
        sheet: encode(&sheet.concat()),
        cells: vec![],
        clearances: CLEARED_FOR_ALL,
        lines: 300_000,
        lua: Some(Lua {
            setup: "local out, page = {}, {}",
            round: "out[#out + 1] = 7; page[#page + 1] = 0; out[#out + 1] = 7; page[#page + 1] = 0; \
                    out[#out + 1] = 7; page[#page + 1] = 1; out[#out + 1] = 7; page[#page + 1] = 15",
            steps: 16,
        }),
    }
}

/// Cells of several owners, each printed on a page that is cleared for its owners and no others. On the pages above every
/// label is empty and every clearance is full, so that either alone would tell that a line may go out.
fn cleared_pages() -> Workload {
    let labels = [0, 1, 3, 1 << 31];
    let pages = [0, 1, 7, 15];
    let mut clearances = [0; PAGES as usize];
    for (page, label) in pages.into_iter().zip(labels) {
        clearances[usize::from(page)] = label.into();
    }
    let print = |cell: usize| [Push(cell as i64), Load, OutputTo(pages[cell])];
    let sheet = [&[0, 1, 2, 3].map(print).concat()[..], &[Push(1), Bnz(-13)]];
    Workload {
        name: "cleared pages",
        sheet: encode(&sheet.concat()),
        cells: labels.into_iter().map(|label| Atom { number: 7, label }).collect(),
        clearances,
        lines: 300_000,
        lua: Some(Lua {
            setup: "local c, out, page = {7, 7, 7, 7}, {}, {}",
            round: "out[#out + 1] = c[1]; page[#page + 1] = 0; out[#out + 1] = c[2]; page[#page + 1] = 1; \
                    out[#out + 1] = c[3]; page[#page + 1] = 7; out[#out + 1] = c[4]; page[#page + 1] = 15",
            steps: 14,
        }),
    }
}

/// All of these, drawn at random, over cells of several owners.
fn mix() -> Workload {
    let mut random = Random::new(2026);
    let cells: Vec<Atom> =
        (0..64).map(|cell| Atom { number: random.below(64) as i64, label: [0, 0, 1, 3][cell % 4] }).collect();
    let mut sheet: Vec<Command> = Vec::new();
    while sheet.len() < 1000 {
        let here = sheet.len() as i64;
        let mut cell = || Push(random.below(64) as i64);
        let snippet = match cell() {
            Push(0..=15) => vec![cell(), Load, cell(), Load, Add, cell(), Store],
            Push(16..=27) => vec![cell(), cell(), Load, Sub, cell(), Store],
            Push(28..=39) => vec![Push(3), cell(), Add, Push(9), Sub, Pop],
            Push(40..=51) => {
                vec![cell(), Load, Push(here + 6), Call, Push(here + 10), Jump, Bnz(3), Push(1), Pop, Ret]
            }
            _ => vec![Push(1), Bnz(2), Pop, Push(here + 5), Jump],
        };
        sheet.extend(snippet);
    }
    sheet.extend([Push(0), Jump]);
    Workload {
        name: "random mix",
        sheet: encode(&sheet),
        cells,
        clearances: CLEARED_FOR_ALL,
        lines: 0,
        lua: None,
    }
}

pub fn all() -> Vec<Workload> {
    vec![
        arithmetic(),
        walk(1024),
        calls(),
        returns(),
        hidden_branches(),
        lines(),
        pages(),
        cleared_pages(),
        mix(),
    ]
}

/// The berth of the README: a run of 26 steps that comes to its end, with room for its three lines and the end line.
pub fn berth() -> Workload {
    let sheet = [
        &[Push(6), Jump][..],
        &[Push(0), Load, Sub, RetV],
        &[Push(0), Load, Output],
        &[Push(1), Load, Push(2), CallN(1, 1), OutputTo(1)],
        &[Push(2), Load, Push(1), Load, Push(2), CallN(1, 1), Sub, Output],
    ];
    Workload {
        name: "berth",
        sheet: encode(&sheet.concat()),
        cells: vec![Atom { number: 412, label: 0 }, hidden(-985), Atom { number: 1180, label: 2 }],
        clearances: CLEARED_FOR_ALL,
        lines: 4,
        lua: None,
    }
}

/// A sheet of so many commands that does nothing.
pub fn idle(commands: usize) -> Vec<u8> {
    let pair = [Push(1), Pop];
    encode(&pair.into_iter().cycle().take(commands).collect::<Vec<_>>())
}

/// Commands to read and to list, which are cut into texts of one length. They are so many that the processor cannot
/// foresee their branches, as it would those of one text that is read again and again.
pub fn texts() -> [(&'static str, Vec<Command>); 5] {
    const NAMES: [Command; 9] = [Add, Sub, Pop, Output, Load, Store, Jump, Call, Ret];
    let mut random = Random::new(2026);
    let mut drawn =
        |draw: fn(&mut Random) -> Command| (0..16 * COMMANDS).map(|_| draw(&mut random)).collect();
    [
        (
            "mixed",
            drawn(|random| match random.weighted(&[45, 5, 50]) {
                0 => Push(random.below(64) as i64),
                1 => Bnz(random.below(32) as i16 - 16),
                _ => random.pick(&NAMES),
            }),
        ),
        (
            "19 digits",
            drawn(|random| {
                let number = random.between(10usize.pow(18), i64::MAX as usize) as i64;
                Push(random.pick(&[number, -number]))
            }),
        ),
        ("names", drawn(|random| random.pick(&NAMES))),
        (
            "pages",
            drawn(|random| match random.weighted(&[50, 10, 40]) {
                0 => Push(random.below(64) as i64),
                1 => Output,
                _ => OutputTo(random.below(16) as u8),
            }),
        ),
        (
            "calls",
            drawn(|random| match random.weighted(&[50, 10, 40]) {
                0 => Push(random.below(64) as i64),
                1 => RetV,
                _ => CallN(random.below(16) as u8, random.below(2) as u8),
            }),
        ),
    ]
}
