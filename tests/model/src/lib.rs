//! The labelled sheet machine in plain Rust, written from document 01 and document 02's changes U1 to U6 alone, to hold
//! the proved engines against. docs/MANUAL.md describes the machine in other words.
//!
//! It shares nothing with them: sheets are decoded to an enum, rule tables to trees, the stack is a `Vec`. What
//! document 01 leaves open, the handler's own commands, comes in from outside as words, which [`kernel`] runs and
//! [`engine`] holds to the table's meaning at every fault.

pub mod edges;
pub mod engine;
pub mod kernel;
pub mod machine;
pub mod page;
pub mod rules;
pub mod sample;
pub mod sheet;
pub mod text;

/// What is refused: document 01's number and place, or document 02's.
#[derive(Clone, Copy, Debug, PartialEq, Eq)]
pub struct Refusal {
    pub number: u64,
    pub place: u64,
}

impl Refusal {
    pub fn new(number: u64, place: usize) -> Refusal {
        Refusal { number, place: place as u64 }
    }
}

/// A set of owners 0 to 31, bit i for owner i.
pub type Label = u32;

/// Whether every owner of `a` is one of `b`.
pub fn flows(a: Label, b: Label) -> bool {
    (0..32).all(|owner| a >> owner & 1 == 0 || b >> owner & 1 == 1)
}

/// A number with a label.
#[derive(Clone, Copy, Debug, PartialEq, Eq)]
pub struct Atom {
    pub number: i64,
    pub label: Label,
}
