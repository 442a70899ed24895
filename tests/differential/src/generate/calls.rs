//! Builds calls: with any number of arguments, nested, to hidden targets, back from hidden places to visible frames,
//! with a result or without, and some that return the wrong way.

use super::Builder;
use crate::random::Random;
use model::sheet::{Command, Command::*, ARGUMENTS, RESULTS};

fn arguments(random: &mut Random) -> u8 {
    match random.weighted(&[25, 35, 30, 5, 5]) {
        0 => 0,
        1 => 1,
        2 => random.between(2, 4) as u8,
        3 => random.between(5, 14) as u8,
        _ => ARGUMENTS,
    }
}

pub fn any_call(random: &mut Random) -> Command {
    CallN(arguments(random), random.below(2) as u8)
}

/// A call with one operand that no sheet may have, or two, next to the limit in some cases; a few have the operand word
/// of a call that may be.
pub fn outside(random: &mut Random, arguments: u8, results: u8) -> Command {
    let far = random.pick(&[17, 0x7f, 0x80, 0xff]);
    match random.below(7) {
        0 => CallN(ARGUMENTS + 1, results),
        1 => CallN(arguments, RESULTS + 1),
        2 => CallN(0, 0x10),
        3 => CallN(random.below(15) as u8, 0x10 | random.below(2) as u8),
        4 => CallN(far, results),
        5 => CallN(arguments, far),
        _ => CallN(far, random.between(2, 0xff) as u8),
    }
}

impl Builder<'_> {
    /// Gives the value on top a cell's label and leaves its number.
    fn hide(&mut self) {
        let address = self.address();
        for command in [Push(address), Load, Push(address), Load, Sub, Add] {
            self.put(command);
        }
    }

    /// Pushes a target that [`Builder::function`] sets; in some cases it goes through a cell, or is hidden.
    pub(super) fn target(&mut self) -> usize {
        let target = self.commands.len();
        self.put(Push(0));
        match self.random.weighted(&[65, 22, 13]) {
            1 => {
                let address = self.address();
                for command in [Push(address), Store, Push(address), Load] {
                    self.put(command);
                }
            }
            2 => self.hide(),
            _ => {}
        }
        target
    }

    /// A body that is jumped over, and the target of a call before it.
    pub(super) fn function(&mut self, target: usize, body: impl FnOnce(&mut Self)) {
        let skip = self.commands.len();
        self.put(Push(0));
        self.put(Jump);
        self.commands[target] = Push(self.here());
        body(self);
        self.commands[skip] = Push(self.here());
    }

    /// Does away with a value.
    fn use_value(&mut self, depth: usize) {
        match self.random.weighted(&[40, 30, 15, 15]) {
            0 => self.put(Pop),
            1 => self.print(),
            2 => {
                let address = self.address();
                self.put(Push(address));
                self.put(Store);
            }
            _ => {
                let branch = self.commands.len();
                self.put(Bnz(0));
                if depth > 0 {
                    self.body(depth - 1);
                }
                self.land(branch);
            }
        }
    }

    /// Goes back from a function whose arguments are done with: mostly as it should, with a value where one is due.
    fn go_back(&mut self, results: u8) {
        let value = |builder: &mut Self| {
            builder.value(1);
            if builder.random.percent(10) {
                builder.hide();
            }
        };
        match (self.random.weighted(&[90, 4, 2, 2, 2]), results) {
            (0, 1) | (1, 0) => {
                value(self);
                self.put(RetV);
            }
            (0, _) | (1, _) => self.put(Ret),
            // a value too many, none, or one that nothing takes
            (2, _) => {
                value(self);
                value(self);
                self.put(RetV);
            }
            (3, _) => self.put(RetV),
            _ => {
                value(self);
                self.put(Ret);
            }
        }
    }

    /// A call with any number of arguments. Its body does away with them and goes back; the caller with the result.
    pub(super) fn call_n(&mut self, depth: usize) {
        let arguments = arguments(self.random);
        let results = u8::from(self.random.percent(60));
        for _ in 0..arguments {
            self.value(usize::from(arguments < 4));
        }
        let target = self.target();
        // In a few cases there is an argument too few.
        let more = u8::from(self.random.percent(4));
        self.put(CallN((arguments + more).min(ARGUMENTS), results));
        if results == 1 {
            self.use_value(depth - 1);
        }
        self.function(target, |builder| {
            // The last of them may be what goes back, and the sum of two is one.
            let kept = u8::from(results == 1 && arguments > 0 && builder.random.percent(25));
            let mut left = arguments;
            while left > kept {
                if left > 1 && builder.random.percent(30) {
                    let command = builder.random.pick(&[Add, Sub]);
                    builder.put(command);
                } else {
                    builder.use_value(depth - 1);
                }
                left -= 1;
            }
            if kept == 1 {
                builder.put(RetV);
                return;
            }
            builder.body(depth - 1);
            builder.go_back(results);
        });
    }

    /// A function that goes back one way or another, depending on a cell, with one value or another. Back there, the
    /// result is printed, a value that was there before, and a constant.
    pub(super) fn either_way(&mut self) {
        let results = u8::from(self.random.percent(70));
        self.value(0);
        let target = self.target();
        self.put(CallN(0, results));
        if results == 1 {
            self.print();
        }
        self.print();
        self.put(Push(1));
        self.print();
        self.function(target, |builder| {
            builder.cell();
            let branch = builder.commands.len();
            builder.put(Bnz(0));
            // One of the two may be the wrong one.
            let wrong = builder.random.percent(25);
            builder.go_back(if wrong { 1 - results } else { results });
            builder.land(branch);
            builder.go_back(results);
        });
    }

    /// A call whose target is a call, which may find the row of the first, or a row of the other command; and a RetV
    /// after a RetV.
    pub(super) fn chain(&mut self) {
        let below = self.random.below(3) as u8;
        let taken = self.random.between(0, below.into()) as u8;
        let [due, inner_due] = [0; 2].map(|_| u8::from(self.random.percent(60)));
        for _ in 0..below {
            self.value(0);
        }
        let inner = self.commands.len();
        self.put(Push(0));
        let outer = self.commands.len();
        self.put(Push(0));
        let old = below == 0 && due == 0;
        self.put(if old { Call } else { CallN(below + 1, due) });
        if due == 1 {
            self.use_value(0);
        }
        self.function(outer, |builder| {
            let old = taken == 1 && inner_due == 0;
            builder.put(if old { Call } else { CallN(taken, inner_due) });
            // What comes back goes further back.
            if due == 1 && inner_due == 1 && taken == below {
                builder.put(RetV);
                return;
            }
            for _ in 0..below - taken + inner_due {
                builder.put(Pop);
            }
            builder.go_back(due);
        });
        self.function(inner, |builder| {
            for _ in 0..taken {
                builder.put(Pop);
            }
            builder.go_back(inner_due);
        });
    }
}
