//! Random and damaged starts, from a seed. [`compare`] holds an engine to the model in everything that a caller can
//! see; [`privacy`] looks for two runs that tell a reader what it may not know, or a page what it is closed to; [`text`]
//! holds the reader and the lister of sheets in text to the model.

pub mod backend;
pub mod compare;
#[cfg(feature = "engine")]
pub mod engine;
pub mod generate;
pub mod privacy;
pub mod random;
pub mod shrink;
pub mod tally;
pub mod text;
