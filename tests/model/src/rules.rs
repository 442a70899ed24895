//! Rules: the standard ones, rule tables as trees, and the rule memory's rows (document 01, "Rules", refusals 6 and 7;
//! document 02, U4, for OutputTo, which is under Output's rule, and U6, for CallN, which is under Call's, and RetV).

use crate::sheet::{inputs_of, EACH};
use crate::{flows, Label, Refusal};

/// The most bytes a rule table may have.
pub const TABLE_BYTES: usize = 512;
/// How deep expressions may go.
pub const DEPTH: usize = 8;
/// Seven words: code, P, L1, L2, L3, new place label, result label.
pub type RuleMemory = [i64; 7];

/// What a rule is asked: the command about to run, the place label, the labels of its inputs.
#[derive(Clone, Copy, Debug, PartialEq, Eq)]
pub struct Question {
    pub code: u8,
    pub place: Label,
    pub inputs: [Option<Label>; 3],
}

/// What a rule says of an allowed command.
#[derive(Clone, Copy, Debug, PartialEq, Eq)]
pub struct Labels {
    pub place: Label,
    pub result: Label,
}

impl Question {
    /// The first five words of the rule memory, missing inputs being −1.
    pub fn words(&self) -> [i64; 5] {
        let word = |input: Option<Label>| input.map_or(-1, i64::from);
        let [first, second, third] = self.inputs;
        [self.code.into(), self.place.into(), word(first), word(second), word(third)]
    }

    /// The question whose words these are, if the command supplies just these inputs and all labels are in range.
    pub fn of_words(words: &[i64]) -> Option<Question> {
        let code = u8::try_from(words[0]).ok()?;
        if !EACH.iter().any(|command| command.code() == code) {
            return None;
        }
        let mut inputs = [None; 3];
        for (index, input) in inputs.iter_mut().enumerate() {
            if index < inputs_of(code) {
                *input = Some(Label::try_from(words[2 + index]).ok()?);
            } else if words[2 + index] != -1 {
                return None;
            }
        }
        Some(Question { code, place: Label::try_from(words[1]).ok()?, inputs })
    }

    fn input(&self, index: usize) -> Label {
        self.inputs[index - 1].expect("the command supplies this input")
    }
}

/// The standard rules, as document 01 lists them; OutputTo is under Output's, CallN under Call's.
pub fn standard(question: &Question) -> Option<Labels> {
    let place = question.place;
    let input = |index| question.input(index);
    let (allowed, new_place, result) = match question.code {
        0x01 | 0x02 => (true, place, input(1) | input(2)),
        0x03 => (true, place, 0),
        0x04 | 0x0c => (true, place, input(1) | place),
        0x05 => (true, place, 0),
        0x06 => (true, place, input(1) | input(2)),
        0x07 => (flows(input(1) | place, input(3)), place, input(1) | input(2) | place),
        0x08 | 0x09 => (true, input(1) | place, 0),
        0x0a | 0x0d => (true, input(1) | place, place),
        0x0b => (true, input(1), 0),
        0x0e => (true, input(2), input(1) | place),
        code => panic!("code {code} is no command"),
    };
    allowed.then_some(Labels { place: new_place, result })
}

/// The codes of the commands for which a table has a rule, in its order.
pub const RULED: [u8; 12] = [0x01, 0x02, 0x03, 0x04, 0x05, 0x06, 0x07, 0x08, 0x09, 0x0a, 0x0b, 0x0e];

/// The standard table's bytes: for these codes allowed, place, result.
#[rustfmt::skip]
pub const STANDARD: [u8; 60] = [
    0x17, 0x11, 0x15, 0x12, 0x13,
    0x17, 0x11, 0x15, 0x12, 0x13,
    0x17, 0x11, 0x10,
    0x17, 0x11, 0x15, 0x12, 0x11,
    0x17, 0x11, 0x10,
    0x17, 0x11, 0x15, 0x12, 0x13,
    0x16, 0x15, 0x12, 0x11, 0x14, 0x11, 0x15, 0x15, 0x12, 0x13, 0x11,
    0x17, 0x15, 0x12, 0x11, 0x10,
    0x17, 0x15, 0x12, 0x11, 0x10,
    0x17, 0x15, 0x12, 0x11, 0x11,
    0x17, 0x12, 0x10,
    0x17, 0x13, 0x15, 0x12, 0x11,
];

#[derive(Clone, Debug, PartialEq, Eq)]
pub enum LabelTree {
    Empty,
    Place,
    Input(usize),
    Join(Box<LabelTree>, Box<LabelTree>),
}

#[derive(Clone, Debug, PartialEq, Eq)]
pub enum YesNoTree {
    Flows(LabelTree, LabelTree),
    True,
    And(Box<YesNoTree>, Box<YesNoTree>),
    Or(Box<YesNoTree>, Box<YesNoTree>),
}

#[derive(Clone, Debug, PartialEq, Eq)]
pub struct Rule {
    pub allowed: YesNoTree,
    pub place: LabelTree,
    pub result: LabelTree,
}

/// A rule for each of the codes [`RULED`].
#[derive(Clone, Debug, PartialEq, Eq)]
pub struct Table {
    pub rules: Vec<Rule>,
}

impl LabelTree {
    fn label(&self, question: &Question) -> Label {
        match self {
            LabelTree::Empty => 0,
            LabelTree::Place => question.place,
            LabelTree::Input(index) => question.input(*index),
            LabelTree::Join(left, right) => left.label(question) | right.label(question),
        }
    }

    fn depth(&self) -> usize {
        match self {
            LabelTree::Join(left, right) => 1 + left.depth().max(right.depth()),
            _ => 1,
        }
    }

    pub fn bytes(&self, out: &mut Vec<u8>) {
        match self {
            LabelTree::Empty => out.push(0x10),
            LabelTree::Place => out.push(0x11),
            LabelTree::Input(index) => out.push(0x11 + *index as u8),
            LabelTree::Join(left, right) => {
                out.push(0x15);
                left.bytes(out);
                right.bytes(out);
            }
        }
    }
}

impl YesNoTree {
    fn holds(&self, question: &Question) -> bool {
        match self {
            YesNoTree::Flows(from, to) => flows(from.label(question), to.label(question)),
            YesNoTree::True => true,
            YesNoTree::And(left, right) => left.holds(question) && right.holds(question),
            YesNoTree::Or(left, right) => left.holds(question) || right.holds(question),
        }
    }

    fn depth(&self) -> usize {
        match self {
            YesNoTree::True => 1,
            YesNoTree::Flows(from, to) => 1 + from.depth().max(to.depth()),
            YesNoTree::And(left, right) | YesNoTree::Or(left, right) => 1 + left.depth().max(right.depth()),
        }
    }

    pub fn bytes(&self, out: &mut Vec<u8>) {
        match self {
            YesNoTree::Flows(from, to) => {
                out.push(0x16);
                from.bytes(out);
                to.bytes(out);
            }
            YesNoTree::True => out.push(0x17),
            YesNoTree::And(left, right) => {
                out.push(0x18);
                left.bytes(out);
                right.bytes(out);
            }
            YesNoTree::Or(left, right) => {
                out.push(0x19);
                left.bytes(out);
                right.bytes(out);
            }
        }
    }
}

/// What may be wrong with a table's byte; all of them are refusal 6 at its offset.
#[derive(Clone, Copy, Debug, PartialEq, Eq)]
pub enum TableFault {
    TooLong,
    Unknown,
    Misplaced,
    TooDeep,
    Unsupplied,
    Missing,
    LeftOver,
}

/// Reads expressions from the left.
struct Reader<'a> {
    bytes: &'a [u8],
    at: usize,
    inputs: usize,
}

impl Reader<'_> {
    fn fault<T>(&self, fault: TableFault) -> Result<T, (TableFault, usize)> {
        Err((fault, self.at))
    }

    /// The byte here, unless it is missing or stands more than eight deep.
    fn byte(&self, depth: usize) -> Result<u8, (TableFault, usize)> {
        match self.bytes.get(self.at) {
            None => self.fault(TableFault::Missing),
            Some(_) if depth > DEPTH => self.fault(TableFault::TooDeep),
            Some(&byte) => Ok(byte),
        }
    }

    fn label(&mut self, depth: usize) -> Result<LabelTree, (TableFault, usize)> {
        let leaf = match self.byte(depth)? {
            0x10 => LabelTree::Empty,
            0x11 => LabelTree::Place,
            byte @ 0x12..=0x14 => {
                let index = usize::from(byte - 0x11);
                if index > self.inputs {
                    return self.fault(TableFault::Unsupplied);
                }
                LabelTree::Input(index)
            }
            0x15 => {
                self.at += 1;
                let left = self.label(depth + 1)?;
                let right = self.label(depth + 1)?;
                return Ok(LabelTree::Join(left.into(), right.into()));
            }
            0x16..=0x19 => return self.fault(TableFault::Misplaced),
            _ => return self.fault(TableFault::Unknown),
        };
        self.at += 1;
        Ok(leaf)
    }

    fn yes_no(&mut self, depth: usize) -> Result<YesNoTree, (TableFault, usize)> {
        let byte = self.byte(depth)?;
        match byte {
            0x10..=0x15 => return self.fault(TableFault::Misplaced),
            0x16..=0x19 => self.at += 1,
            _ => return self.fault(TableFault::Unknown),
        }
        Ok(match byte {
            0x16 => {
                let from = self.label(depth + 1)?;
                let to = self.label(depth + 1)?;
                YesNoTree::Flows(from, to)
            }
            0x17 => YesNoTree::True,
            _ => {
                let left = self.yes_no(depth + 1)?.into();
                let right = self.yes_no(depth + 1)?.into();
                if byte == 0x18 {
                    YesNoTree::And(left, right)
                } else {
                    YesNoTree::Or(left, right)
                }
            }
        })
    }
}

/// Whether the command of this code must have 10 for its result.
pub fn result_is_empty(code: u8) -> bool {
    matches!(code, 0x03 | 0x08 | 0x09 | 0x0b)
}

impl Table {
    /// The table of these bytes, or refusal 6.
    pub fn parse(bytes: &[u8]) -> Result<Table, Refusal> {
        Table::read(bytes).map_err(|(_, offset)| Refusal::new(6, offset))
    }

    /// The table of these bytes, or what is wrong and where.
    pub fn read(bytes: &[u8]) -> Result<Table, (TableFault, usize)> {
        if bytes.len() > TABLE_BYTES {
            return Err((TableFault::TooLong, TABLE_BYTES));
        }
        let mut reader = Reader { bytes, at: 0, inputs: 0 };
        let mut rules = Vec::new();
        for code in RULED {
            reader.inputs = inputs_of(code);
            let allowed = reader.yes_no(1)?;
            let place = reader.label(1)?;
            if result_is_empty(code) && reader.byte(1)? != 0x10 {
                return reader.fault(TableFault::Misplaced);
            }
            let result = reader.label(1)?;
            rules.push(Rule { allowed, place, result });
        }
        if reader.at < bytes.len() {
            return reader.fault(TableFault::LeftOver);
        }
        Ok(Table { rules })
    }

    /// How deep the table's deepest expression is.
    pub fn depth(&self) -> usize {
        let depth = |rule: &Rule| rule.allowed.depth().max(rule.place.depth()).max(rule.result.depth());
        self.rules.iter().map(depth).max().unwrap_or(0)
    }

    pub fn bytes(&self) -> Vec<u8> {
        let mut out = Vec::new();
        for rule in &self.rules {
            rule.allowed.bytes(&mut out);
            rule.place.bytes(&mut out);
            rule.result.bytes(&mut out);
        }
        out
    }

    /// The rule of the command of this code: its own, or, as the table has none, Output's for OutputTo and Call's for
    /// CallN.
    pub fn rule(&self, code: u8) -> &Rule {
        let ruled = match code {
            0x0c => 0x04,
            0x0d => 0x0a,
            own => own,
        };
        let index = RULED.iter().position(|&code| code == ruled);
        &self.rules[index.expect("the code is a command's")]
    }

    /// What the table says of a command.
    pub fn answer(&self, question: &Question) -> Option<Labels> {
        let rule = self.rule(question.code);
        rule.allowed
            .holds(question)
            .then(|| Labels { place: rule.place.label(question), result: self.result(question) })
    }

    /// The result label that the rule names, also where it does not allow the command.
    pub fn result(&self, question: &Question) -> Label {
        self.rule(question.code).result.label(question)
    }

    /// Whether a run may start with this rule memory: it is empty, or an allowed row of this table.
    pub fn accepts(&self, memory: &[i64]) -> bool {
        if memory.len() != 7 {
            return false;
        }
        if memory.iter().all(|&word| word == 0) {
            return true;
        }
        let Some(question) = Question::of_words(&memory[..5]) else {
            return false;
        };
        let Some(labels) = self.answer(&question) else {
            return false;
        };
        memory[5] == i64::from(labels.place) && memory[6] == i64::from(labels.result)
    }
}
