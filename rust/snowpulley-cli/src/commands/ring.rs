//! `snowpulley ring`: the ring of some modules, in words and as a drawing.

use super::owners;
use crate::args::Args;
use crate::cli::{Command, Outcome, Report};
use crate::cluster::{self, Cluster, Site, Walk};
use crate::files;
use crate::picture;
use crate::text::table::{Side, Table};
use std::fmt::Write;

pub const COMMAND: Command = Command {
    name: "ring",
    usage: "--ids 1,2,3,4 [OPTION...] [KEY...]",
    summary: "show the ring of some modules, with keys and their owners; draw it",
    help: &[
        "\
Shows each module's number of places and its share of the ring: the part of all
positions of which it is the first HOME owner. With keys, their owners as well;
TOO_FEW is a negative answer.
",
        cluster::OPTIONS,
        "  --places       list the places in the order of the ring
  --svg FILE     draw the ring with the keys and their STANDING owners
",
    ],
    run,
};

fn run(mut args: Args) -> Outcome {
    let cluster = Cluster::of(Site::from_args(&mut args)?)?;
    let (svg, places) = (args.output("--svg")?, args.flag("--places"));
    let walks = owners::walks(&cluster, args)?;
    if let Some(path) = svg {
        files::write(&path, picture::drawn(&cluster, &walks).as_bytes())?;
    }
    Ok(Report {
        text: text(&cluster, &walks, places),
        is_good: walks.iter().all(Walk::is_full),
    })
}

fn text(cluster: &Cluster, walks: &[Walk], places: bool) -> String {
    let mut text = format!("{}\n\n{}", cluster.title(), modules(cluster));
    if places {
        let _ = write!(text, "\n{}", place_table(cluster));
    }
    if !walks.is_empty() {
        let _ = write!(text, "\n{}", owners::table(walks));
    }
    text
}

fn modules(cluster: &Cluster) -> Table<4> {
    let mut table = Table::new([
        (Side::Right, "module"),
        (Side::Left, "state"),
        (Side::Right, "places"),
        (Side::Right, "share"),
    ]);
    for &id in &cluster.site.ids {
        table.push([
            id.to_string(),
            cluster.site.state(id).to_string(),
            cluster.site.vnodes.to_string(),
            cluster.percent(id),
        ]);
    }
    table
}

fn place_table(cluster: &Cluster) -> Table<3> {
    let mut table = Table::new([
        (Side::Left, "token"),
        (Side::Right, "module"),
        (Side::Right, "vnode"),
    ]);
    for place in cluster.places() {
        let token = format!("{:#010x}", place.token);
        table.push([token, place.node.to_string(), place.vnode.to_string()]);
    }
    table
}
