//! A handler for any rule table, plainly translated: for tests and benchmarks with no proved engine at hand.

use crate::engine::Handler;
use crate::rules::{LabelTree, Table, YesNoTree};
use crate::sheet::{Command, EACH};

const SUB: i64 = 0x02;
const PUSH: i64 = 0x05;
const LOAD: i64 = 0x06;
const STORE: i64 = 0x07;
const JUMP: i64 = 0x08;
const BNZ: i64 = 0x09;
const RET: i64 = 0x0b;
const OR: i64 = 0x11;
const DUP: i64 = 0x12;

/// The kernel commands of a handler, two words each.
#[derive(Clone, Debug, Default)]
pub struct Sample {
    words: Vec<i64>,
}

impl Sample {
    /// Tests the code against each command's in turn; a rule's tests leave 0 for yes.
    pub fn of(table: &Table) -> Sample {
        let mut out = Sample::default();
        for code in EACH.map(Command::code) {
            let rule = table.rule(code);
            out.put(PUSH, code.into());
            out.load(0);
            out.put(SUB, 0);
            let other = out.branch();
            out.yes_no(&rule.allowed);
            let denied = out.branch();
            for (address, label) in [(5, &rule.place), (6, &rule.result)] {
                out.label(label);
                out.put(PUSH, address);
                out.put(STORE, 0);
            }
            out.put(RET, 0);
            out.land(denied);
            out.deny();
            out.land(other);
        }
        out.deny();
        out
    }

    pub fn handler(&self) -> Handler<'_> {
        Handler { count: self.words.len() / 2, words: &self.words }
    }

    /// Makes every refusal of a rule a pair of whatever stands there: a deliberately wrong handler, for tests of tests.
    pub fn allow_all(&mut self) {
        for command in self.words.chunks_exact_mut(2) {
            match command {
                [PUSH, -1] => command.copy_from_slice(&[PUSH, 0]),
                [JUMP, 0] => command.copy_from_slice(&[RET, 0]),
                _ => {}
            }
        }
    }

    fn put(&mut self, code: i64, operand: i64) {
        self.words.extend([code, operand]);
    }

    fn load(&mut self, address: i64) {
        self.put(PUSH, address);
        self.put(LOAD, 0);
    }

    /// A branch whose target [`Sample::land`] sets.
    fn branch(&mut self) -> usize {
        self.put(BNZ, 0);
        self.words.len() / 2 - 1
    }

    fn land(&mut self, branch: usize) {
        self.words[2 * branch + 1] = (self.words.len() / 2 - branch) as i64;
    }

    fn deny(&mut self) {
        self.put(PUSH, -1);
        self.put(JUMP, 0);
    }

    fn label(&mut self, tree: &LabelTree) {
        match tree {
            LabelTree::Empty => self.put(PUSH, 0),
            LabelTree::Place => self.load(1),
            LabelTree::Input(index) => self.load(1 + *index as i64),
            LabelTree::Join(left, right) => {
                self.label(left);
                self.label(right);
                self.put(OR, 0);
            }
        }
    }

    fn yes_no(&mut self, tree: &YesNoTree) {
        match tree {
            YesNoTree::True => self.put(PUSH, 0),
            YesNoTree::Flows(from, to) => {
                self.label(to);
                self.put(DUP, 0);
                self.label(from);
                self.put(OR, 0);
                self.put(SUB, 0);
            }
            YesNoTree::And(left, right) => {
                self.yes_no(left);
                self.yes_no(right);
                self.put(OR, 0);
            }
            YesNoTree::Or(left, right) => {
                self.yes_no(left);
                let try_right = self.branch();
                self.put(PUSH, 0);
                let target = self.words.len() + 1;
                self.put(PUSH, 0);
                self.put(JUMP, 0);
                self.land(try_right);
                self.yes_no(right);
                self.words[target] = self.words.len() as i64 / 2;
            }
        }
    }
}
