//! `snowpulley purge`: clears the tombstones of a store file.

use crate::args::{number, text, Args};
use crate::cli::{failure, Command, Failure, Outcome, Report};
use crate::files::Changed;
use crate::text::time::{from_utc, line_shown, utc};
use crate::text::wrap::wrapped;
use snowpulley::entry::TIME_MAX;
use snowpulley::{store, Refusal};
use std::fmt;
use std::time::{SystemTime, UNIX_EPOCH};

pub const COMMAND: Command = Command {
    name: "purge",
    usage: "STORE LINE [--output FILE] [--future]",
    summary: "clear the old deletion marks of a store file",
    help: &["\
Removes from a store every deletion mark (tombstone) whose time is below LINE,
and sets the store's purge line to it. A value stays, however old. LINE is a
date and time in UTC, as 2025-01-14 or 2025-01-14T06:40, or milliseconds since
1970, as in the column phys of snowpulley show. STORE is a file, which is
replaced as a whole or left as it is, or - for standard input.

  --output FILE  write the purged store to a file and leave STORE as it is
  --future       take a LINE that is later than this computer's time

Purge all modules of a site to one LINE, after they have merged with each other.
From then on an entry below the line is refused where its key is not held, and
so is a merge of stores with different lines; a line cannot be lowered. So LINE
is to be a time in the past. A module that slept through the purge may hold what
was deleted elsewhere. Do not purge it: see snowpulley offer --help.

Negative answers are: a store that is not sound; a LINE below the store's own.
Neither writes anything.
"],
    run,
};

fn run(mut args: Args) -> Outcome {
    let (output, future) = (args.output("--output")?, args.flag("--future"));
    let [path, word] = args.operands_named(["STORE", "LINE"])?;
    let line = line_of(&text(word)?)?;
    if line > now() && !future {
        return Err(failure(format!(
            "LINE: {} UTC is later than this computer's time; if that is right, give --future",
            utc(line)
        )));
    }
    let changed = Changed::new(path, output)?;
    let mut image = changed.read()?;
    let purged = match Purged::of(&mut image, line) {
        Ok(purged) => purged,
        Err(refused) => {
            let (name, line) = (changed.name(), line_shown(line));
            let text = format!("{name}: not purged to {line}\n{refused}");
            return Ok(Report::negative(text));
        }
    };
    changed.write(&image)?;
    let name = changed.output_name();
    Ok(Report::good(format!("{name}: purged\n{purged}")))
}

/// A date, or a number of milliseconds.
fn line_of(word: &str) -> Result<u64, Failure> {
    let message = |_| {
        failure(format!(
            "LINE: '{word}' is no date, as 2025-01-14 or 2025-01-14T06:40, and no number of \
             milliseconds from 0 to {TIME_MAX}"
        ))
    };
    let line = from_utc(word).map_or_else(|| number(word, "LINE", 0..=TIME_MAX), Ok);
    line.map_err(message)
}

/// This computer's time in milliseconds; 0 where it is set to before 1970.
fn now() -> u64 {
    let now = SystemTime::now().duration_since(UNIX_EPOCH);
    now.map_or(0, |since| since.as_millis() as u64)
}

/// What a purge did to a store.
struct Purged {
    before: u64,
    line: u64,
    removed: usize,
    remaining: usize,
}

impl Purged {
    /// Purges the store; or what is to be said where that is refused.
    fn of(image: &mut [u8], line: u64) -> Result<Purged, String> {
        let unsound = "snowpulley show says what is wrong with it\n";
        let before = store::line(image).map_err(|refusal| refused(refusal, unsound))?;
        let held = format!("purge line: {}\n", line_shown(before));
        let removed = store::purge(image, line).map_err(|refusal| refused(refusal, &held))?;
        let entries = store::entries(image).map_err(|refusal| refused(refusal, &held))?;
        Ok(Purged {
            before,
            line,
            removed,
            remaining: entries.len(),
        })
    }
}

fn refused(refusal: Refusal, more: &str) -> String {
    format!("refused with {refusal}\n{more}")
}

impl fmt::Display for Purged {
    fn fmt(&self, f: &mut fmt::Formatter<'_>) -> fmt::Result {
        let [before, line] = [self.before, self.line].map(line_shown);
        writeln!(f, "purge line: {line}; before: {before}")?;
        let (removed, remaining) = (self.removed, self.remaining);
        writeln!(
            f,
            "tombstones removed: {removed}; entries remaining: {remaining}"
        )?;
        // No time is below 0.
        if self.line == 0 {
            return Ok(());
        }
        let [below, unequal] = [Refusal::BelowLine, Refusal::UnequalLines]
            .map(|refusal| format!("{} {}", refusal.number(), refusal.name()));
        let follows = format!(
            "An entry below the line is now refused with {below} where its key is not held, and a \
             merge with a store that has another line with {unequal}. Purge the other modules of \
             the site to the same line, if they have merged with this one; a module that slept is \
             not purged, but made anew: see snowpulley offer --help."
        );
        write!(f, "\n{}", wrapped("", &follows))
    }
}
