//! The sample journals, as the programs here and the tests write them.

pub mod sample;
pub mod script;
pub mod tail;
