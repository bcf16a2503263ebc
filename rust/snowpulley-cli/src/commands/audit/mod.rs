//! `snowpulley audit`: which delivery of a key is in force, and why not the
//! others.

mod checked;
mod findings;
mod page;
mod unreadable;

use crate::args::{self, Args};
use crate::cli::{Command, Outcome, Report};
use crate::files;
use crate::text::table::Table;
use crate::text::wrap::wrapped;
use checked::{LIMITS, LIMITS_TITLE};
use findings::{with_key, Findings, Row, COLUMNS, KEY_COLUMN, NOTE, REUSED, REUSED_TITLE};
use std::fmt::Write;

pub const COMMAND: Command = Command {
    name: "audit",
    usage: "LIST KEY [--all] [--full] [--hex] [--html FILE]",
    summary: "say which delivery of a key is in force, and why not the others",
    help: &["\
Says which delivery of KEY is in force, with the time and the module of its
stamp, and why each other delivery of KEY is not; and whether that stamp was
given to another entry of KEY as well. LIST is a file of REPL frames, one right
after the other, in the order in which they came, at most 1000; or - for
standard input. The module's own PUT and DEL, and what came in a merged store,
are not in the list. snowpulley replay --deliveries makes a list of a journal.

  --all        list the deliveries of other keys as well
  --full       show all of long values
  --hex        KEY is in hexadecimal, as the tool shows a key that is no text;
               it may begin with x or 0x
  --html FILE  write the same as a page for printing, with all of each value

Negative answers are: a list without a delivery of KEY; a list that is not
readable as REPL frames.
"],
    run,
};

fn run(mut args: Args) -> Outcome {
    let (all, full, hex) = (args.flag("--all"), args.flag("--full"), args.flag("--hex"));
    let html = args.output("--html")?;
    let [path, key] = args.operands_named(["LIST", "KEY"])?;
    let (list, key) = (files::read(&path)?, args::key(key, hex)?);
    files::keep_apart(&path, &[html.as_deref()])?;
    let findings = Findings::of(files::name(&path), &list, &key)?;
    if let Some(path) = html {
        files::write(&path, page::page(&findings, all).as_bytes())?;
    }
    Ok(Report {
        text: text(&findings, all, full),
        is_good: findings.is_good(),
    })
}

fn text(findings: &Findings<'_>, all: bool, full: bool) -> String {
    let mut text = format!("{}\n\n", findings.answer(full));
    for (name, fact) in findings.facts(all) {
        let _ = writeln!(text, "{name:<10}  {fact}");
    }
    let rows = findings.rows(all, full);
    if !rows.is_empty() {
        let _ = write!(text, "\n{}\n{}", table(rows, all), wrapped("", NOTE));
    }
    if findings.has_reused_stamp() {
        let _ = write!(text, "\n{REUSED_TITLE}:\n{}", wrapped("", REUSED));
    }
    let checked = findings.checked();
    let (sources, names) = (wrapped("", checked.sources), wrapped("", &checked.names()));
    let _ = write!(text, "\n{sources}{names}\n{LIMITS_TITLE}:\n");
    text + &LIMITS.map(|limit| wrapped("- ", limit)).concat()
}

fn table(rows: Vec<Row>, all: bool) -> String {
    if all {
        let mut table = Table::new(with_key(KEY_COLUMN, COLUMNS));
        for row in rows {
            table.push(with_key(row.key, row.cells));
        }
        return table.to_string();
    }
    let mut table = Table::new(COLUMNS);
    for row in rows {
        table.push(row.cells);
    }
    table.to_string()
}
