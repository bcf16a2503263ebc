//! `snowpulley replay`: a journal, answered and shown.

mod deliveries;

use crate::args::{self, Args};
use crate::cli::{failure, Command, Failure, Outcome, Report};
use crate::files;
use crate::journal::{Broken, Record, Records};
use crate::module::Module;
use crate::text::message::{name, of_frame, of_message};
use crate::text::table::{Side, Table};
use deliveries::Deliveries;
use snowpulley::{frame, store, Message, Refusal};
use std::collections::BTreeMap;
use std::fmt::Write;

pub const COMMAND: Command = Command {
    name: "replay",
    usage: "JOURNAL [--store OUT] [--replies OUT]
                  [--deliveries OUT [--key KEY [--hex]]] [--full]",
    summary: "answer a journal's requests and show them with their replies",
    help: &["\
Answers the requests of a journal as the replay program does, with a store of
100 slots and a clock of module id 1. Shows each request with its time and
reply, and how often each reply was given. JOURNAL is a file, or - for standard
input.

  --store OUT       write the store's image after the last request to a file
  --replies OUT     write the reply frames to a file
  --deliveries OUT  write the REPL frames that were answered OK to a file, as a
                    list for snowpulley audit. The module's own PUT and DEL, and
                    what came in a merged store, are not in the list.
  --key KEY         write only the deliveries of this key
  --hex             KEY is in hexadecimal, as for snowpulley audit
  --full            show all of long keys and values

A journal that ends inside a record, or has a LEN out of range, is a negative
answer.
"],
    run,
};

/// What the replay program keeps.
const SLOTS: usize = 100;
const NODE: u8 = 1;

/// How much of a key, a value or a frame is shown by default.
const SHORT: usize = 16;
/// The column where replies begin, if the request leaves room.
const REQUEST_WIDTH: usize = 48;

fn run(mut args: Args) -> Outcome {
    let (image, replies) = (args.output("--store")?, args.output("--replies")?);
    let (list, key) = (args.output("--deliveries")?, key(&mut args)?);
    if key.is_some() && list.is_none() {
        return Err(failure("--key needs --deliveries"));
    }
    let full = args.flag("--full");
    let path = args.operand("JOURNAL")?;
    let journal = files::read(&path)?;
    let outputs = [&image, &replies, &list].map(Option::as_deref);
    files::keep_apart(&path, &outputs)?;
    let mut replay = Replay::fresh(key, if full { usize::MAX } else { SHORT })?;
    replay.all(&journal)?;
    let written = [
        &replay.module.store,
        &replay.replies,
        &replay.deliveries.list,
    ];
    for (path, bytes) in outputs.iter().zip(written) {
        path.map_or(Ok(()), |path| files::write(path, bytes))?;
    }
    let note = list.map_or(String::new(), |_| replay.deliveries.note());
    let Report { text, is_good } = replay.report()?;
    let text = text + &note;
    Ok(Report { text, is_good })
}

/// The key of which deliveries are asked for.
fn key(args: &mut Args) -> Result<Option<Vec<u8>>, Failure> {
    let (key, hex) = (args.option("--key")?, args.flag("--hex"));
    match key {
        None if hex => Err(failure("--hex needs --key")),
        key => key.map(|key| args::key(key, hex)).transpose(),
    }
}

struct Replay {
    module: Module,
    /// The reply frames so far.
    replies: Vec<u8>,
    deliveries: Deliveries,
    /// How often each reply was given.
    counts: BTreeMap<(u8, String), usize>,
    lines: Vec<String>,
    limit: usize,
    broken: Option<Broken>,
}

impl Replay {
    /// Before the first request; a key limits the deliveries.
    fn fresh(key: Option<Vec<u8>>, limit: usize) -> Result<Replay, Failure> {
        Ok(Replay {
            module: Module::fresh(NODE, SLOTS)?,
            replies: Vec::new(),
            deliveries: Deliveries::of(key),
            counts: BTreeMap::new(),
            lines: Vec::new(),
            limit,
            broken: None,
        })
    }

    fn all(&mut self, journal: &[u8]) -> Result<(), Failure> {
        for record in Records::of(journal) {
            match record {
                Ok(record) => self.answer(record)?,
                Err(broken) => self.stop(broken)?,
            }
        }
        Ok(())
    }

    fn answer(&mut self, Record { time, frame }: Record<'_>) -> Result<(), Failure> {
        let reply = self.module.answer(time, frame).to_vec();
        let is_ok = frame::read(&reply) == Ok(Message::Ok);
        self.deliveries.add(frame, is_ok);
        self.line(&time.to_string(), &of_frame(frame, self.limit), &reply)
    }

    /// What the replay program writes where it stops early.
    fn stop(&mut self, broken: Broken) -> Result<(), Failure> {
        let refused = Message::refused(Refusal::BadFrame);
        let reply = refused.frame()?;
        self.broken = Some(broken);
        self.line("", &broken.to_string(), &reply)
    }

    fn line(&mut self, time: &str, request: &str, reply: &[u8]) -> Result<(), Failure> {
        let message = frame::read(reply)?;
        *self.counts.entry(kind(&message)).or_default() += 1;
        self.replies.extend(reply);
        let number = self.lines.len() + 1;
        let reply = of_message(&message, self.limit);
        let line = format!("{number:>5} {time:>15}  {request:<REQUEST_WIDTH$}  {reply}\n");
        self.lines.push(line);
        Ok(())
    }

    fn report(self) -> Outcome {
        let mut text = self.lines.concat();
        if !self.counts.is_empty() {
            let _ = writeln!(text, "\n{}", self.summary());
        }
        let broken = usize::from(self.broken.is_some());
        let used = store::entries(&self.module.store)?.len();
        let clock = self.module.clock;
        let _ = writeln!(
            text,
            "records: {}; slots used: {used} of {SLOTS}; clock: {}, skew count {}",
            self.lines.len() - broken,
            clock.stamp(),
            clock.skew
        );
        let is_good = self.broken.is_none();
        Ok(Report { text, is_good })
    }

    fn summary(&self) -> Table<2> {
        let mut table = Table::new([(Side::Right, "times"), (Side::Left, "reply")]);
        for ((_, name), count) in &self.counts {
            table.push([count.to_string(), name.clone()]);
        }
        table
    }
}

/// A reply without its value, and where it stands in the summary.
fn kind(reply: &Message<'_>) -> (u8, String) {
    match *reply {
        Message::Err { number } => (number, of_message(reply, 0)),
        _ => (0, name(reply).to_string()),
    }
}
