//! `snowpulley offer`: offers what one store file holds to another one.

use crate::args::Args;
use crate::cli::{failure, Command, Outcome, Report};
use crate::files::{self, Changed};
use crate::text::bytes::limit;
use crate::text::entries::{row, with_note, COLUMNS};
use crate::text::table::{Side, Table};
use crate::text::wrap::wrapped;
use snowpulley::store::{self, Offered};
use snowpulley::{Entry, Refusal};
use std::fmt;

pub const COMMAND: Command = Command {
    name: "offer",
    usage: "GIVER RECEIVER [--output FILE] [--full]",
    summary: "offer the entries of a store file to another one",
    help: &["\
Offers each entry of the store GIVER to the store RECEIVER. That takes entries
of keys that it does not hold, and those that are above its own; what it refuses
is listed. The stores may have different purge lines, with which they do not
merge. Each of the two is a file, or one of them - for standard input. GIVER
stays as it is, and RECEIVER is replaced as a whole or left as it is. No clock
is moved.

  --output FILE  write the changed store to a file and leave RECEIVER as it is
  --full         show long keys and values of what is refused whole

So a module comes back to its site that slept through a purge, or whose store is
an older copy:

1. Offer its store to that of a neighbour.
2. An entry that is refused with 34 BELOW_LINE was deleted and cleared, or never
   came to the neighbour: the stores do not know which. Find out, and have it
   written anew if it is to stand. 6 STORE_FULL asks for a free slot first.
3. Copy the neighbour's file to the module: its old store is not used again. A
   new module gets its first store in the same way.

Negative answers are: a store that is not sound, and then nothing is written; an
entry that is refused, and what is not refused is written all the same.
"],
    run,
};

fn run(mut args: Args) -> Outcome {
    let (output, limit) = (args.output("--output")?, limit(args.flag("--full")));
    let [giver, receiver] = args.operands_named(["GIVER", "RECEIVER"])?;
    if giver == "-" && receiver == "-" {
        return Err(failure("GIVER and RECEIVER are both standard input"));
    }
    let changed = Changed::new(receiver, output)?;
    changed.keep_apart_from(&giver)?;
    let (source, mut image) = (files::read(&giver)?, changed.read()?);
    for (name, store) in [(files::name(&giver), &source), (changed.name(), &image)] {
        if let Err(refusal) = store::entries(store) {
            let text = format!("{name}: nothing is offered: refused with {refusal}\n");
            return Ok(Report::negative(text));
        }
    }
    let offers = Offers::of(&store::entries(&source)?, &mut image, limit);
    changed.write(&image)?;
    let (from, to) = (files::name(&giver), changed.output_name());
    let text = format!("{to}: offered what {from} holds\n{offers}");
    Ok(match offers.refused.is_empty() {
        true => Report::good(text),
        false => Report::negative(text),
    })
}

/// What became of the entries that were offered.
struct Offers {
    stored: usize,
    replaced: usize,
    kept: usize,
    refused: Vec<Refusal>,
    table: Table<9>,
}

impl Offers {
    fn of(entries: &[Entry<'_>], receiver: &mut [u8], limit: usize) -> Offers {
        let mut offers = Offers {
            stored: 0,
            replaced: 0,
            kept: 0,
            refused: Vec::new(),
            table: Table::new(with_note((Side::Left, "refused with"), COLUMNS)),
        };
        for (slot, entry) in entries.iter().enumerate() {
            match store::offer(receiver, entry) {
                Ok(Offered::Stored) => offers.stored += 1,
                Ok(Offered::Replaced) => offers.replaced += 1,
                Ok(Offered::Kept) => offers.kept += 1,
                Err(refusal) => {
                    let note = format!("{} {}", refusal.number(), refusal.name());
                    let cells = row(slot, entry, limit).cells();
                    offers.refused.push(refusal);
                    offers.table.push(with_note(note, cells));
                }
            }
        }
        offers
    }
}

impl fmt::Display for Offers {
    fn fmt(&self, f: &mut fmt::Formatter<'_>) -> fmt::Result {
        let (stored, replaced, kept) = (self.stored, self.replaced, self.kept);
        let refused = self.refused.len();
        writeln!(
            f,
            "stored: {stored}; replaced an older entry: {replaced}; \
             its own entry kept: {kept}; refused: {refused}"
        )?;
        if refused > 0 {
            write!(f, "\n{}", self.table)?;
        }
        for (refusal, follows) in FOLLOWS {
            if self.refused.contains(&refusal) {
                let name = format!("{} {}: ", refusal.number(), refusal.name());
                write!(f, "\n{}", wrapped("", &(name + follows)))?;
            }
        }
        Ok(())
    }
}

/// What a refusal means for whoever offers a whole store.
const FOLLOWS: [(Refusal, &str); 2] = [
    (
        Refusal::BelowLine,
        "from before the receiver's purge line, of a key that it does not hold. Such an entry was \
         deleted and cleared there, or never came. Find out which, and have it written anew if it \
         is to stand.",
    ),
    (
        Refusal::StoreFull,
        "no slot is free. Offer again after old deletions were purged on all modules of the site.",
    ),
];
