//! The commands, each in a module of its own.

mod audit;
mod demo;
mod offer;
mod owners;
mod purge;
mod refusal;
mod replay;
mod ring;
mod show;

use crate::cli::Command;

/// In the order in which the help lists them.
pub const ALL: &[Command] = &[
    demo::COMMAND,
    show::COMMAND,
    purge::COMMAND,
    offer::COMMAND,
    replay::COMMAND,
    audit::COMMAND,
    owners::COMMAND,
    ring::COMMAND,
    refusal::COMMAND,
];
