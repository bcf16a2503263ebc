//! `snowpulley refusal`: what the numbers mean.

use crate::args::{number, text, Args};
use crate::cli::{Command, Outcome, Report};
use crate::text::table::{Side, Table};
use snowpulley::Refusal;

pub const COMMAND: Command = Command {
    name: "refusal",
    usage: "[N]",
    summary: "say what a refusal's number means, or list them all",
    help: &["\
The refusal with the number N, as in ERR N: its name, and when it is given.
Without N, all of them. A number that no refusal has is a negative answer.
"],
    run,
};

fn run(args: Args) -> Outcome {
    let Some(word) = args.optional_operand()? else {
        return Ok(Report::good(table(Refusal::ALL)));
    };
    let asked = number(&text(word)?, "N", 0..=u16::MAX)?;
    Ok(match Refusal::from_number(asked) {
        Some(refusal) => Report::good(table(&[refusal])),
        None => Report::negative(format!("no refusal has the number {asked}\n")),
    })
}

fn table(refusals: &[Refusal]) -> String {
    let mut table = Table::new([
        (Side::Right, "no."),
        (Side::Left, "name"),
        (Side::Left, "given for"),
    ]);
    for refusal in refusals {
        let (number, name) = (refusal.number().to_string(), refusal.name().to_string());
        table.push([number, name, refusal.given().to_string()]);
    }
    table.to_string()
}
