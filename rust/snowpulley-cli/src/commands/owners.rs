//! `snowpulley owners`: which modules hold a key.

use crate::args::{text, Args};
use crate::cli::{failure, Command, Failure, Outcome, Report};
use crate::cluster::{self, owners_shown, Cluster, Site, Walk};
use crate::text::bytes::{shown, SHORT};
use crate::text::table::{Side, Table};

pub const COMMAND: Command = Command {
    name: "owners",
    usage: "--ids 1,2,3,4 [OPTION...] KEY...",
    summary: "name the owners of keys, HOME and STANDING",
    help: &[
        "\
Walks the ring from each key's position. HOME takes any module, STANDING those
that are not DOWN. TOO_FEW, where fewer modules are admitted than are asked for,
is a negative answer.
",
        cluster::OPTIONS,
    ],
    run,
};

fn run(mut args: Args) -> Outcome {
    let cluster = Cluster::of(Site::from_args(&mut args)?)?;
    let walks = walks(&cluster, args)?;
    if walks.is_empty() {
        return Err(failure("KEY is missing"));
    }
    Ok(Report {
        text: format!("{}\n\n{}", cluster.title(), table(&walks)),
        is_good: walks.iter().all(Walk::is_full),
    })
}

/// A walk for each key that is left on the command line.
pub fn walks(cluster: &Cluster, args: Args) -> Result<Vec<Walk>, Failure> {
    let keys = args.operands()?.into_iter().map(text);
    keys.map(|key| cluster.walk(key?.as_bytes())).collect()
}

pub fn table(walks: &[Walk]) -> Table<4> {
    let mut table = Table::new([
        (Side::Left, "key"),
        (Side::Left, "position"),
        (Side::Left, "HOME"),
        (Side::Left, "STANDING"),
    ]);
    for walk in walks {
        let position = format!("{:#010x}", walk.position);
        table.push([
            shown(&walk.key, SHORT),
            position,
            owners_shown(&walk.home),
            owners_shown(&walk.standing),
        ]);
    }
    table
}
