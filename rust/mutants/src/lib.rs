//! Mutation testing of the proved crates. A mutant is a small change of the code, or of a definition that a
//! contract cites; the prover must refuse it. One that it proves is the same program, or shows a promise that is
//! not made. The same machinery tries the hand-written wrong answers in `crates/*/wrong-answers/`.

pub mod antt;
pub mod change;
pub mod code;
pub mod definitions;
pub mod edit;
pub mod fit;
pub mod group;
pub mod items;
pub mod known;
pub mod lexer;
pub mod log;
pub mod options;
pub mod pool;
pub mod progress;
pub mod repository;
pub mod run;
pub mod table;
pub mod workplace;
pub mod wrong;
