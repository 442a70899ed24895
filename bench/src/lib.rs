//! What the engines are measured against: interpreters in Rust that give the same answers on the same lent memory, and
//! a reader and a lister of texts, which `tests/agree.rs` holds to the model; and the sheets that all of them are given.

pub mod fast;
pub mod safe;
pub mod tags;
pub mod text;
pub mod workloads;
