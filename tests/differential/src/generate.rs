//! Makes starts and jobs. Sheets are built of loops, calls, branches on hidden data and stores, so that runs go deep;
//! then some of them are damaged, as are cells, clearances, tables, rule memories and spaces.

mod calls;
pub mod clearances;

use self::clearances::owner;
use crate::random::Random;
use model::engine::{plain, Lent, Report, CLEARED_FOR_ALL};
use model::machine::{Kind, Stop};
use model::rules::{
    result_is_empty, LabelTree, Question, Rule, Table, YesNoTree, DEPTH, RULED, STANDARD, TABLE_BYTES,
};
use model::sheet::{decode, encode, inputs_of, Command, Command::*, COMMANDS, PAGES};
use model::{Atom, Label};

/// A start of either engine.
#[derive(Clone, Debug)]
pub struct Start {
    pub sheet: Vec<u8>,
    pub table: Vec<u8>,
    pub lent: Lent,
    pub clearances: Vec<i64>,
    pub fuel: u64,
}

// ---- atoms ---------------------------------------------------------------------------------------------------------

/// A label, mostly of the first few owners, so that labels flow to one another in some cases and not in others.
pub fn label(random: &mut Random) -> Label {
    match random.weighted(&[35, 40, 10, 5, 10]) {
        0 => 0,
        1 => random.pick(&[1, 2, 3, 4, 5, 7]),
        2 => 0x8000_0000,
        3 => 0xffff_ffff,
        _ => random.word() as Label,
    }
}

/// A number, mostly small, so that it may serve as an address, a command number or a truth value.
pub fn number(random: &mut Random) -> i64 {
    match random.weighted(&[25, 45, 10, 10, 10]) {
        0 => 0,
        1 => random.between(1, 12) as i64,
        2 => -(random.between(1, 12) as i64),
        3 => random.pick(&[i64::MIN, i64::MAX, i64::MAX - 1, i64::MIN + 1, 1 << 32, -1 << 32]),
        _ => random.word() as i64,
    }
}

pub fn cells(random: &mut Random) -> Vec<Atom> {
    let count = match random.weighted(&[3, 90, 6, 1]) {
        0 => 0,
        1 => random.between(1, 8),
        2 => random.between(9, 60),
        _ => random.between(1020, 1024),
    };
    let mut cell = || {
        let number = if random.percent(45) { random.below(count) as i64 } else { number(random) };
        Atom { number, label: label(random) }
    };
    (0..count).map(|_| cell()).collect()
}

// ---- sheets --------------------------------------------------------------------------------------------------------

/// Builds a sheet snippet by snippet; command numbers are known, so that jumps and calls go where they should.
struct Builder<'a> {
    random: &'a mut Random,
    commands: Vec<Command>,
    cells: usize,
    /// Pushes of the number that the sheet's end will have.
    ends: Vec<usize>,
}

impl Builder<'_> {
    fn put(&mut self, command: Command) {
        self.commands.push(command);
    }

    /// Output or OutputTo.
    fn print(&mut self) {
        let command = if self.random.percent(50) { Output } else { OutputTo(page(self.random)) };
        self.put(command);
    }

    fn here(&self) -> i64 {
        self.commands.len() as i64
    }

    fn address(&mut self) -> i64 {
        if self.cells == 0 || self.random.below(150) == 0 {
            return number(self.random);
        }
        self.random.below(self.cells) as i64
    }

    /// Leaves one value on the stack.
    fn value(&mut self, depth: usize) {
        match self.random.weighted(&[300, 450, if depth > 0 { 200 } else { 0 }, 20, 8, 12]) {
            0 => {
                let operand = number(self.random);
                self.put(Push(operand));
            }
            1 => self.cell(),
            2 => {
                self.value(depth - 1);
                self.value(depth - 1);
                let command = self.random.pick(&[Add, Sub]);
                self.put(command);
            }
            3 => {
                self.cell();
                self.put(Load);
            }
            4 => self.cell_at_brink(),
            _ => self.brink(),
        }
    }

    /// A sum or difference with a cell's number, which takes it past a limit of the numbers or does not.
    fn cell_at_brink(&mut self) {
        let limit = self.random.pick(&[i64::MIN, i64::MAX]);
        let near = limit - limit.signum() * self.random.between(0, 6) as i64;
        let command = self.random.pick(&[Add, Sub]);
        self.cell();
        self.put(Push(near));
        self.put(command);
    }

    /// A sum or difference that is a limit of the numbers, or next to it on either side.
    fn brink(&mut self) {
        let command = self.random.pick(&[Add, Sub]);
        let limit = self.random.pick(&[i64::MIN, i64::MAX]);
        let result = i128::from(limit) + self.random.pick(&[-1, 0, 1]);
        let top = number(self.random);
        let under = |top: i64| match command {
            Add => result - i128::from(top),
            _ => i128::from(top) - result,
        };
        // Of a number and its complement one is on the limit's side.
        let operands = [top, !top].into_iter().find_map(|top| Some([under(top).try_into().ok()?, top]));
        for number in operands.unwrap_or([limit, limit]) {
            self.put(Push(number));
        }
        self.put(command);
    }

    fn cell(&mut self) {
        let address = self.address();
        self.put(Push(address));
        self.put(Load);
    }

    /// Writes a distance over the branch at `branch`, to land here.
    fn land(&mut self, branch: usize) {
        self.commands[branch] = Bnz((self.here() - branch as i64) as i16);
    }

    fn branch_back(&mut self, to: i64) {
        let distance = to - self.here();
        self.put(Bnz(distance as i16));
    }

    fn body(&mut self, depth: usize) {
        for _ in 0..self.random.between(0, 3) {
            self.snippet(depth);
        }
    }

    fn snippet(&mut self, depth: usize) {
        if self.commands.len() > 600 {
            return;
        }
        let deeper = if depth > 0 { 12 } else { 0 };
        match self.random.weighted(&[
            16,
            14,
            6,
            deeper,
            deeper,
            deeper,
            deeper / 2,
            deeper / 2,
            deeper / 4,
            2,
            1,
            1,
            1,
            1,
            1,
            3,
            deeper,
            deeper / 2,
            deeper / 4,
        ]) {
            0 => {
                self.value(2);
                self.print();
            }
            1 => {
                self.value(2);
                if self.random.percent(92) {
                    let address = self.address();
                    self.put(Push(address));
                } else {
                    self.cell();
                }
                self.put(Store);
            }
            2 => {
                self.value(1);
                if self.random.percent(70) {
                    self.put(Pop);
                }
            }
            3 => self.branch(depth),
            4 => self.count_down(depth),
            5 => self.call(depth),
            6 => self.jump(depth),
            7 => self.probe(),
            8 => self.leave(),
            // Round and round until the stack, the output space or the allowance ends it.
            9 => {
                let start = self.here();
                let command = self.random.pick(&[Push(3), Push(-1)]);
                self.put(command);
                self.put(Push(1));
                self.branch_back(start);
            }
            10 => {
                let start = self.here();
                self.value(0);
                self.print();
                self.put(Push(1));
                self.branch_back(start);
            }
            11 => {
                let start = self.here();
                self.body(0);
                self.put(Push(start));
                self.put(Jump);
            }
            12 => {
                let command = any_command(self.random);
                self.put(command);
            }
            13 => self.put(Ret),
            15 => self.prints(),
            16 => self.call_n(depth),
            17 => self.either_way(),
            18 => self.chain(),
            _ => {
                let target = number(self.random);
                self.put(Push(target));
                let command = self.random.pick(&[Jump, Load, Call, CallN(0, 0), CallN(0, 1)]);
                self.put(command);
            }
        }
    }

    /// Several values, and then as many lines one after the other, which may find one another's rows; in some cases the
    /// values are one cell's, and the pages decide which of them go.
    fn prints(&mut self) {
        let count = self.random.between(2, 4);
        let one_cell = self.random.percent(40);
        let address = self.address();
        for _ in 0..count {
            if one_cell {
                self.put(Push(address));
                self.put(Load);
            } else {
                self.value(0);
            }
        }
        for _ in 0..count {
            if one_cell {
                let page = page(self.random);
                self.put(OutputTo(page));
            } else {
                self.print();
            }
        }
    }

    /// Skips a body on data, mostly hidden.
    fn branch(&mut self, depth: usize) {
        self.value(1);
        let branch = self.commands.len();
        self.put(Bnz(0));
        self.body(depth - 1);
        self.land(branch);
    }

    /// A loop whose counter is a cell.
    fn count_down(&mut self, depth: usize) {
        let counter = self.address();
        let rounds = self.random.between(1, 9) as i64;
        self.put(Push(rounds));
        self.put(Push(counter));
        self.put(Store);
        let start = self.here();
        self.body(depth - 1);
        for command in [Push(1), Push(counter), Load, Sub, Push(counter), Store, Push(counter), Load] {
            self.put(command);
        }
        self.branch_back(start);
    }

    /// A call to a body that stands behind the place it returns to.
    fn call(&mut self, depth: usize) {
        self.value(1);
        let target = self.target();
        self.put(Call);
        self.function(target, |builder| {
            match builder.random.weighted(&[40, 25, 25, 10]) {
                0 => builder.put(Pop),
                1 => builder.print(),
                2 => {
                    let branch = builder.commands.len();
                    builder.put(Bnz(0));
                    builder.body(depth - 1);
                    builder.land(branch);
                }
                _ => {}
            }
            builder.body(depth - 1);
            if builder.random.percent(92) {
                builder.put(Ret);
            }
        });
    }

    /// A call that may change a cell depending on another one; back at the caller's label the cell is printed, and
    /// then a constant.
    fn probe(&mut self) {
        let cell = self.address();
        self.cell();
        let target = self.commands.len();
        self.put(Push(0));
        self.put(Call);
        for command in [Push(cell), Load] {
            self.put(command);
        }
        self.print();
        self.put(Push(1));
        self.print();
        self.function(target, |builder| {
            let number = number(builder.random);
            for command in [Bnz(4), Push(number), Push(cell), Store, Ret] {
                builder.put(command);
            }
        });
    }

    /// A call that leaves for the end of the sheet or comes back, depending on a cell; back there, a constant is printed.
    fn leave(&mut self) {
        self.cell();
        let target = self.commands.len();
        for command in [Push(0), Call, Push(1)] {
            self.put(command);
        }
        self.print();
        self.function(target, |builder| {
            builder.put(Bnz(3));
            builder.ends.push(builder.commands.len());
            for command in [Push(0), Jump, Ret] {
                builder.put(command);
            }
        });
    }

    /// A jump over a body, in some cases to a place that a cell's number moves.
    fn jump(&mut self, depth: usize) {
        let target = self.commands.len();
        self.put(Push(0));
        if self.random.percent(30) {
            self.cell();
            self.put(Add);
        }
        self.put(Jump);
        self.body(depth - 1);
        self.commands[target] = Push(self.here());
    }
}

/// A page, mostly one of a few, so that pages have several lines.
pub fn page(random: &mut Random) -> u8 {
    if random.percent(60) {
        random.pick(&[0, 1, 15])
    } else {
        random.below(PAGES.into()) as u8
    }
}

/// A page that no sheet may have, next to the last one in some cases.
fn page_outside(random: &mut Random) -> u8 {
    match random.below(3) {
        0 => PAGES,
        1 => random.pick(&[17, 0x7f, 0x80, 0xff]),
        _ => random.between(PAGES.into(), 0xff) as u8,
    }
}

pub fn any_command(random: &mut Random) -> Command {
    match random.below(14) {
        0 => Add,
        1 => Sub,
        2 => Pop,
        3 => Output,
        4 => Push(number(random)),
        5 => Load,
        6 => Store,
        7 => Jump,
        8 => Bnz(random.between(0, 12) as i16 - 6),
        9 => Call,
        10 => Ret,
        11 => OutputTo(page(random)),
        12 => calls::any_call(random),
        _ => RetV,
    }
}

/// The commands of a sheet for so many cells.
pub fn commands(random: &mut Random, cells: usize) -> Vec<Command> {
    match random.weighted(&[900, 98, 2]) {
        0 => {
            let snippets = random.between(1, 8);
            let mut builder = Builder { random, commands: Vec::new(), cells, ends: Vec::new() };
            if builder.random.percent(3) {
                builder.cell_at_brink();
            }
            for _ in 0..snippets {
                builder.snippet(3);
            }
            let end = Push(builder.here());
            let Builder { mut commands, ends, .. } = builder;
            for at in ends {
                commands[at] = end;
            }
            if random.percent(10) && !commands.is_empty() {
                let index = random.below(commands.len());
                commands[index] = any_command(random);
            }
            commands
        }
        1 => (0..random.between(0, 30))
            .map(|_| if random.percent(45) { Push(random.between(0, 9) as i64) } else { any_command(random) })
            .collect(),
        _ => {
            let calls = [Push(2), CallN(0, 1)];
            let pairs = [[Push(1), Pop], [Push(2), Output], [Push(0), Bnz(1)], [Push(3), OutputTo(7)], calls];
            let pair = random.pick(&pairs);
            pair.into_iter().cycle().take(random.between(4090, 4100)).collect()
        }
    }
}

/// Damages bytes: one changed, inserted, removed, or the end cut off.
pub fn damage(random: &mut Random, bytes: &mut Vec<u8>, near: &[u8]) {
    let at = random.below(bytes.len() + 1);
    let byte = if random.percent(80) { random.pick(near) } else { random.word() as u8 };
    match random.below(4) {
        0 if at < bytes.len() => bytes[at] = byte,
        1 if at < bytes.len() => {
            bytes.remove(at);
        }
        2 => bytes.truncate(at),
        _ => bytes.insert(at, byte),
    }
}

/// The command with an operand that no sheet may have, if it has such operands.
fn outside(random: &mut Random, command: Command) -> Option<Command> {
    match command {
        OutputTo(_) => Some(OutputTo(page_outside(random))),
        CallN(arguments, results) => Some(calls::outside(random, arguments, results)),
        _ => None,
    }
}

/// Damages the bytes of a sheet: any of them, an operand that has a range, or its end, where such a command is cut.
pub fn damage_sheet(random: &mut Random, bytes: &mut Vec<u8>) {
    let mut commands = decode(bytes).unwrap_or_default();
    let ranged: Vec<usize> =
        (0..commands.len()).filter(|&at| matches!(commands[at], OutputTo(_) | CallN(..))).collect();
    match random.weighted(&[65, 25, 10]) {
        1 if !ranged.is_empty() => {
            for _ in 0..random.between(1, 2) {
                let at = random.pick(&ranged);
                commands[at] = outside(random, commands[at]).unwrap_or(commands[at]);
            }
            *bytes = encode(&commands);
            // A second fault, which may come first.
            if random.percent(30) {
                damage(random, bytes, &COMMAND_BYTES);
            }
        }
        2 => bytes.extend(random.pick(&[&[0x0c][..], &[0x0d], &[0x0d, 1], &[0x0d, 16]])),
        _ => damage(random, bytes, &COMMAND_BYTES),
    }
}

/// The codes, and what stands next to them and to the last page.
const COMMAND_BYTES: [u8; 17] = [0, 1, 2, 3, 4, 5, 6, 7, 8, 9, 10, 11, 12, 13, 14, 15, 16];

/// The bytes of commands. Where they are too many, the first of these may have an operand that no sheet may have.
pub fn encoded(random: &mut Random, mut commands: Vec<Command>) -> Vec<u8> {
    if commands.len() > COMMANDS && random.percent(40) {
        let command = random.pick(&[OutputTo(0), CallN(0, 0)]);
        commands[COMMANDS] = outside(random, command).unwrap_or(command);
    }
    encode(&commands)
}

pub fn sheet(random: &mut Random, cells: usize) -> Vec<u8> {
    let commands = commands(random, cells);
    let mut bytes = encoded(random, commands);
    if random.percent(8) {
        damage_sheet(random, &mut bytes);
    }
    bytes
}

// ---- rule tables ---------------------------------------------------------------------------------------------------

fn label_tree(random: &mut Random, depth: usize, inputs: usize) -> LabelTree {
    if depth > 1 && random.percent(45) {
        let left = label_tree(random, depth - 1, inputs);
        let right = label_tree(random, depth - 1, inputs);
        return LabelTree::Join(left.into(), right.into());
    }
    match random.below(4) {
        0 => LabelTree::Empty,
        1 => LabelTree::Place,
        _ if inputs > 0 => LabelTree::Input(random.between(1, inputs)),
        _ => LabelTree::Place,
    }
}

fn yes_no_tree(random: &mut Random, depth: usize, inputs: usize) -> YesNoTree {
    let deeper = if depth > 1 { 25 } else { 0 };
    match random.weighted(&[25, 2 * deeper, deeper, deeper]) {
        0 => YesNoTree::True,
        1 => YesNoTree::Flows(label_tree(random, depth - 1, inputs), label_tree(random, depth - 1, inputs)),
        2 => YesNoTree::And(
            yes_no_tree(random, depth - 1, inputs).into(),
            yes_no_tree(random, depth - 1, inputs).into(),
        ),
        _ => YesNoTree::Or(
            yes_no_tree(random, depth - 1, inputs).into(),
            yes_no_tree(random, depth - 1, inputs).into(),
        ),
    }
}

/// A label expression that is just as deep as said, on one side.
fn deep_label(random: &mut Random, depth: usize, inputs: usize) -> LabelTree {
    if depth <= 1 {
        return label_tree(random, 1, inputs);
    }
    let deep = Box::new(deep_label(random, depth - 1, inputs));
    let flat = Box::new(label_tree(random, 1, inputs));
    if random.percent(50) {
        LabelTree::Join(deep, flat)
    } else {
        LabelTree::Join(flat, deep)
    }
}

/// Makes a leaf of a label expression a join, two bytes longer, unless it stands eight deep.
fn grow_label(random: &mut Random, tree: &mut LabelTree, depth: usize, inputs: usize) {
    match tree {
        LabelTree::Join(left, right) => {
            let side = if random.percent(50) { left } else { right };
            grow_label(random, side, depth + 1, inputs)
        }
        _ if depth < DEPTH => {
            let other = label_tree(random, 1, inputs);
            *tree = LabelTree::Join(tree.clone().into(), other.into());
        }
        _ => {}
    }
}

/// The same for a yes/no expression, whose leaves may become any operator.
fn grow_yes_no(random: &mut Random, tree: &mut YesNoTree, depth: usize, inputs: usize) {
    match tree {
        YesNoTree::And(left, right) | YesNoTree::Or(left, right) => {
            let side = if random.percent(50) { left } else { right };
            grow_yes_no(random, side, depth + 1, inputs)
        }
        YesNoTree::Flows(from, to) => {
            let side = if random.percent(50) { from } else { to };
            grow_label(random, side, depth + 1, inputs)
        }
        YesNoTree::True if depth < DEPTH => {
            let yes = Box::new(YesNoTree::True);
            *tree = match random.below(3) {
                0 => YesNoTree::And(yes.clone(), yes),
                1 => YesNoTree::Or(yes.clone(), yes),
                _ => YesNoTree::Flows(label_tree(random, 1, inputs), label_tree(random, 1, inputs)),
            };
        }
        YesNoTree::True => {}
    }
}

/// A table of so many bytes, or a little fewer. Its 36 expressions have odd lengths, so that it never has 511 or 513.
fn grown_table(random: &mut Random, length: usize) -> Vec<u8> {
    let mut table = Table::parse(&STANDARD).expect("the standard table is a table");
    let mut bytes = table.bytes();
    for _ in 0..1000 {
        if bytes.len() >= length {
            break;
        }
        let index = random.below(RULED.len());
        let code = RULED[index];
        let inputs = inputs_of(code);
        let rule = &mut table.rules[index];
        match random.below(3) {
            0 => grow_yes_no(random, &mut rule.allowed, 1, inputs),
            1 if !result_is_empty(code) => grow_label(random, &mut rule.result, 1, inputs),
            _ => grow_label(random, &mut rule.place, 1, inputs),
        }
        bytes = table.bytes();
    }
    bytes
}

/// Puts a random expression in a place of a rule, where one is free.
fn change_rule(random: &mut Random, rule: &mut Rule, code: u8) {
    let inputs = inputs_of(code);
    let depth = random.pick(&[1, 2, 3, 4, 8]);
    match random.below(3) {
        0 => rule.allowed = yes_no_tree(random, depth, inputs),
        1 if random.percent(15) => rule.place = deep_label(random, depth, inputs),
        1 => rule.place = label_tree(random, depth, inputs),
        _ if result_is_empty(code) => rule.allowed = yes_no_tree(random, depth, inputs),
        _ => rule.result = label_tree(random, depth, inputs),
    }
}

fn tree_table(random: &mut Random) -> Table {
    let mut table = Table::parse(&STANDARD).expect("the standard table is a table");
    let changes = random.pick(&[1, 2, 3, 36]);
    for _ in 0..changes {
        let index = random.below(RULED.len());
        change_rule(random, &mut table.rules[index], RULED[index]);
    }
    table
}

/// The standard table, but for sums and differences of secrets, which are not allowed.
fn no_secret_sums() -> Vec<u8> {
    let mut table = Table::parse(&STANDARD).expect("the standard table is a table");
    for rule in &mut table.rules[..2] {
        let inputs = LabelTree::Join(LabelTree::Input(1).into(), LabelTree::Input(2).into());
        rule.allowed = YesNoTree::Flows(inputs, LabelTree::Empty);
    }
    table.bytes()
}

/// The standard table, but for lines of secrets, which are not allowed.
fn no_secret_lines() -> Vec<u8> {
    let mut table = Table::parse(&STANDARD).expect("the standard table is a table");
    table.rules[3].allowed = YesNoTree::Flows(LabelTree::Input(1), LabelTree::Empty);
    table.bytes()
}

/// The standard table, but for returns from a hidden place, or of what is hidden, which are not allowed.
fn no_hidden_returns(random: &mut Random) -> Vec<u8> {
    let mut table = Table::parse(&STANDARD).expect("the standard table is a table");
    for rule in &mut table.rules[10..] {
        let from = if random.percent(50) { LabelTree::Place } else { LabelTree::Input(1) };
        rule.allowed = YesNoTree::Flows(from, LabelTree::Empty);
    }
    table.bytes()
}

/// A table of the day before, with no rule for RetV.
fn table_without_retv(random: &mut Random) -> Vec<u8> {
    let mut table = tree_table(random);
    if random.percent(50) {
        table = Table::parse(&STANDARD).expect("the standard table is a table");
    }
    table.rules.pop();
    table.bytes()
}

/// A rule table's bytes: standard, another, or none.
pub fn table(random: &mut Random) -> Vec<u8> {
    match random.weighted(&[44, 37, 10, 3, 2, 2, 1, 1]) {
        0 => STANDARD.to_vec(),
        6 => no_secret_lines(),
        7 => table_without_retv(random),
        1 => {
            let bytes = tree_table(random).bytes();
            if bytes.len() > TABLE_BYTES && random.percent(70) {
                return STANDARD.to_vec();
            }
            bytes
        }
        2 => {
            let mut bytes = if random.percent(50) { STANDARD.to_vec() } else { tree_table(random).bytes() };
            damage(random, &mut bytes, &[0x10, 0x11, 0x12, 0x13, 0x14, 0x15, 0x16, 0x17, 0x18, 0x19]);
            bytes
        }
        3 => {
            let mut table = Table::parse(&STANDARD).expect("the standard table is a table");
            let depth = random.between(7, 10);
            table.rules[random.pick(&[0, 5, 6])].result = deep_label(random, depth, 2);
            table.bytes()
        }
        4 => {
            let length = random.pick(&[302, 512, 512, 514]);
            grown_table(random, length)
        }
        _ => {
            let length = random.pick(&[0, 511, 512, 513, 600]);
            (0..length).map(|_| random.between(0x10, 0x19) as u8).collect()
        }
    }
}

/// Seven words: empty, an allowed row of the table, one that is not, or what is no row at all.
pub fn rule_memory(random: &mut Random, table: &[u8], first: Option<Command>) -> Vec<i64> {
    let kind = random.weighted(&[60, 30, 6, 3, 1]);
    if kind == 0 {
        return vec![0; 7];
    }
    if kind == 4 {
        let length = random.pick(&[0, 6, 8]);
        return vec![0; length];
    }
    let code = match first {
        Some(command) if random.percent(60) => command.code(),
        _ if random.percent(30) => random.pick(&[0x04, 0x0c, 0x0a, 0x0d, 0x0e]),
        _ => random.between(1, 14) as u8,
    };
    let place = if random.percent(60) { 0 } else { label(random) };
    let mut question = Question { code, place, inputs: [None; 3] };
    for input in question.inputs.iter_mut().take(inputs_of(code)) {
        *input = Some(label(random));
    }
    let mut words = question.words().to_vec();
    match Table::parse(table).ok().and_then(|table| table.answer(&question)) {
        Some(labels) => words.extend([i64::from(labels.place), i64::from(labels.result)]),
        None => words.extend([-1, -1]),
    }
    match kind {
        2 => {
            let index = random.below(7);
            words[index] = match random.below(4) {
                0 => -1,
                1 => 1 << 32,
                2 => i64::from(label(random)),
                _ => number(random),
            };
        }
        // The same labels after another code: that of a command with as many inputs, or that of none.
        1 if random.percent(10) => {
            let others = match inputs_of(code) {
                1 => &[4, 12, 10, 13, 15][..],
                2 => &[1, 6, 14, 15],
                _ => &[15],
            };
            words[0] = random.pick(others);
        }
        3 => words[5..].fill(-1),
        _ => {}
    }
    words
}

// ---- starts --------------------------------------------------------------------------------------------------------

/// The length of a space that needs so much: mostly enough, in a few cases one or more short.
pub fn length(random: &mut Random, needs: usize) -> usize {
    match random.weighted(&[30, 67, 2, 1]) {
        0 => needs,
        1 => needs + random.between(1, 7),
        2 => needs.saturating_sub(1),
        _ => random.below(needs + 1),
    }
}

fn space(random: &mut Random, needs: usize) -> Vec<i64> {
    let length = length(random, needs);
    random.words(length)
}

/// Room for lines: numbers, labels, kinds and pages. Each of the four is the shortest in some cases.
fn output(random: &mut Random, room: usize) -> [Vec<i64>; 4] {
    let mut lengths = [0; 4].map(|_| room + random.pick(&[0, 1, 2, 30]));
    lengths[random.below(4)] = room;
    lengths.map(|length| random.words(length))
}

fn room(random: &mut Random) -> usize {
    match random.weighted(&[10, 50, 37, 3]) {
        0 => 0,
        1 => random.between(1, 8),
        2 => random.between(9, 60),
        _ => random.between(250, 1100),
    }
}

/// The start's memory with room for many lines.
fn roomy(start: &Start) -> Lent {
    let [numbers, line_labels, kinds, pages] = [0; 4].map(|word| vec![word; 1100]);
    Lent { numbers, line_labels, kinds, pages, ..start.lent.clone() }
}

fn set_room(random: &mut Random, lent: &mut Lent, room: usize) {
    [lent.numbers, lent.line_labels, lent.kinds, lent.pages] = output(random, room);
}

/// Where a run comes to the sheet's end: room for just the lines that it prints before, or for the end line too, and in
/// some cases an allowance that is just spent there.
fn fit(random: &mut Random, start: &mut Start) {
    let report = plain(&start.sheet, &mut roomy(start), &start.clearances, start.fuel);
    if let Ok(Report { stop: Stop::End, steps, lines, .. }) = report {
        let end_fits = random.percent(40);
        set_room(random, &mut start.lent, lines as usize - usize::from(!end_fits));
        if random.percent(50) {
            start.fuel = steps;
        }
    }
}

/// Where a run writes a line that has owners: closes its page to one of them, so that it stops there, if not before; in
/// some cases with no room for the line either, and where it is the end line with an allowance that is just spent.
fn close(random: &mut Random, start: &mut Start) {
    let mut lent = roomy(start);
    let Ok(report) = plain(&start.sheet, &mut lent, &CLEARED_FOR_ALL, start.fuel) else {
        return;
    };
    let lines = lent.lines(&report);
    let owned: Vec<usize> = (0..lines.len()).filter(|&line| lines[line].label != 0).collect();
    let Some(&last) = owned.last() else {
        return;
    };
    let at = if random.percent(40) { last } else { random.pick(&owned) };
    let line = lines[at];
    let closed = !owner(random, line.label);
    if let Some(word) = start.clearances.get_mut(usize::from(line.page)) {
        *word = closed.into();
    }
    if random.percent(60) {
        set_room(random, &mut start.lent, at);
    }
    if line.kind == Kind::End && random.percent(50) {
        start.fuel = report.steps;
    }
}

pub fn fuel(random: &mut Random) -> u64 {
    match random.weighted(&[1200, 3500, 5000, 80, 4, 216]) {
        0 => random.between(0, 30) as u64,
        1 => random.between(31, 300) as u64,
        2 => random.between(301, 1500) as u64,
        3 => random.between(1501, 20_000) as u64,
        4 => random.between(999_990, 1_000_000) as u64,
        _ => random.pick(&[1_000_001, 1_000_002, u64::MAX, 1 << 32]),
    }
}

/// Damages the words of cells in a few cases: a number or label too many, too many of both, or a word that is no label.
/// Says whether it did.
fn damage_cells(random: &mut Random, values: &mut Vec<i64>, labels: &mut Vec<i64>) -> bool {
    match random.below(100) {
        0 => values.push(number(random)),
        1 => labels.push(0),
        2 => {
            let length = random.pick(&[1025, 1026, 2000]);
            values.resize(length, 1);
            labels.resize(length - random.below(2), 1);
        }
        3 | 4 if !labels.is_empty() => {
            let index = random.below(labels.len());
            labels[index] = random.pick(&[-1, 1 << 32, i64::MIN, i64::MAX]);
        }
        _ => return false,
    }
    true
}

/// A start; `handler_count` is how many kernel commands the handler of a table has.
pub fn start(random: &mut Random, handler_count: impl Fn(&[u8]) -> u64) -> Start {
    let cells = cells(random);
    let sheet = sheet(random, cells.len());
    let mut table = table(random);
    let commands = decode(&sheet);
    // Sums that both the table and the limits of numbers may stop.
    if matches!(commands.as_deref(), Ok([Push(_), Load, Push(_), Add | Sub, ..])) && random.percent(50) {
        table = no_secret_sums();
    }
    // Returns that both the table and their frame may stop.
    let calls = |commands: &[Command]| commands.iter().any(|command| matches!(command, CallN(..)));
    if commands.as_deref().is_ok_and(calls) && random.percent(15) {
        table = no_hidden_returns(random);
    }
    let first = commands.as_ref().ok().and_then(|commands| commands.first().copied());
    let sets: Vec<Label> = cells.iter().map(|cell| cell.label).collect();
    let mut clearances = clearances::clearances(random, &sets).map(i64::from).to_vec();
    // Lines that both the table and their page may stop.
    if clearances != CLEARED_FOR_ALL && random.percent(8) {
        table = no_secret_lines();
    }
    let mut values: Vec<i64> = cells.iter().map(|cell| cell.number).collect();
    let mut labels: Vec<i64> = cells.iter().map(|cell| cell.label.into()).collect();
    let damaged = damage_cells(random, &mut values, &mut labels);
    // In some cases both would be refused.
    if random.percent(if damaged { 25 } else { 4 }) {
        clearances::damage(random, &mut clearances);
    }
    let program = 2 * commands.map_or(10, |commands| commands.len());
    let handler = 2 * handler_count(&table) as usize;
    let room = room(random);
    let [numbers, line_labels, kinds, pages] = output(random, room);
    let lent = Lent {
        values,
        labels,
        rule_memory: rule_memory(random, &table, first),
        program: space(random, program),
        stack: space(random, 768),
        handler: space(random, handler),
        numbers,
        line_labels,
        kinds,
        pages,
    };
    let mut start = Start { sheet, table, lent, clearances, fuel: fuel(random) };
    match random.weighted(&[20, 15, 65]) {
        0 => fit(random, &mut start),
        1 => close(random, &mut start),
        _ => {}
    }
    start
}

// ---- jobs ----------------------------------------------------------------------------------------------------------

fn job_cell(random: &mut Random, job: &mut Vec<u8>) {
    job.push(0x40);
    job.extend(number(random).to_le_bytes());
    job.extend(label(random).to_le_bytes());
}

fn job_field(random: &mut Random, job: &mut Vec<u8>) {
    if random.percent(50) {
        job.push(0x41);
        let fuel = fuel(random).min(u32::MAX.into()) as u32;
        job.extend(fuel.to_le_bytes());
    } else {
        job.push(0x42);
        job.extend(label(random).to_le_bytes());
    }
}

/// A job's bytes, faulty in some cases.
pub fn job(random: &mut Random) -> Vec<u8> {
    let cells = match random.weighted(&[985, 10, 5]) {
        0 => random.between(0, 9),
        1 => random.between(10, 100),
        _ => random.between(1022, 1026),
    };
    let mut job = Vec::new();
    for _ in 0..cells {
        job_cell(random, &mut job);
        while random.percent(5) {
            job_field(random, &mut job);
        }
    }
    if random.percent(99) {
        job.push(0x41);
        job.extend((random.between(0, 1500) as u32).to_le_bytes());
    }
    while random.percent(60) {
        job_field(random, &mut job);
    }
    if random.percent(8) {
        damage(random, &mut job, &[0x40, 0x41, 0x42, 0x43, 0x44]);
    }
    if random.percent(96) {
        job.push(0x43);
        job.extend(sheet(random, cells));
    }
    if random.percent(3) {
        job.truncate(random.below(job.len() + 1));
    }
    if random.below(400) == 0 {
        let length = random.pick(&[65_535, 65_536, 65_537, 70_000]);
        job.resize(length, 3);
    }
    job
}
