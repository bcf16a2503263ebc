//! `snowpulley demo`: what went wrong on the site, on the proved library.

mod purge;
mod reuse;
mod tale;

use crate::args::Args;
use crate::cli::{Command, Failure, Outcome, Report};
use crate::cluster::{owners_shown, Cluster, Site};
use crate::module::Module;
use crate::text::bytes::{shown, SHORT};
use crate::text::entries;
use crate::text::message::{of_entry, of_message};
use crate::text::time::time_of_day;
use snowpulley::store::{self, Found, Offered};
use snowpulley::{Entry, Message, Refusal};
use tale::Tale;

pub const COMMAND: Command = Command {
    name: "demo",
    usage: "",
    summary: "replay what went wrong on the site, with a theorem behind each line",
    help: &["\
Two modules agree on a correction. One sleeps while the other is mended, wakes
and offers the old one. Then a module that was restored from a spare card reuses
a stamp. At last the mark of a deletion is cleared, a third module, which slept
meanwhile, offers what was deleted, and its store is made anew. Each line is a
call of the proved library and names the theorem, of docs/AUDIT.md, or the
definition that it shows. A line that does not hold is marked WRONG, and is a
negative answer.
"],
    run,
};

const SLOTS: usize = 4;
const CORRECTION: &[u8] = b"comp/scale-3";
const OLD: &[u8] = b"-8C +120, 20C 0";
const MENDED: &[u8] = b"-8C +95, 20C 0";
const LOAD: &[u8] = b"test-load";

/// 2025-01-14 06:40:00 UTC, and later on that day.
const AGREED: u64 = 1_736_836_800_000;
const MINUTE: u64 = 60_000;
const MENDED_AT: u64 = AGREED + 155 * MINUTE;
const WOKE: u64 = AGREED + 290 * MINUTE;

const INTRODUCTION: &str = "\
What went wrong on the site, on the proved library. Each line names, on the left, the theorem of
docs/AUDIT.md or the definition that it shows; 'history' stands for 'delivery_history'.
";

fn run(args: Args) -> Outcome {
    args.finish()?;
    let mut demo = Demo::fresh()?;
    demo.agree()?;
    demo.mend()?;
    demo.wake()?;
    demo.merge()?;
    demo.show()?;
    demo.reuse()?;
    demo.purge()?;
    demo.name_owners()?;
    let (text, holds) = demo.tale.finish();
    Ok(Report {
        text: INTRODUCTION.to_string() + &text,
        is_good: holds,
    })
}

struct Demo {
    /// Module 1 is mended; module 2 sleeps meanwhile.
    modules: [Module; 2],
    /// The store of module 3, which sleeps until the others are purged.
    asleep: Vec<u8>,
    tale: Tale,
}

#[derive(Clone, Copy)]
enum Which {
    First,
    Second,
}
use Which::{First, Second};

impl Demo {
    fn fresh() -> Result<Demo, Refusal> {
        Ok(Demo {
            modules: [Module::fresh(1, SLOTS)?, Module::fresh(2, SLOTS)?],
            asleep: store::fresh(SLOTS)?,
            tale: Tale::default(),
        })
    }

    fn store(&mut self, which: Which) -> &mut Vec<u8> {
        &mut self.modules[which as usize].store
    }

    /// What happens to one of the modules, and when.
    fn check(&mut self, shows: &str, now: u64, which: Which, said: &str, holds: bool) {
        let (time, node) = (time_of_day(now), which as usize + 1);
        let said = format!("{time} module {node}: {said}");
        self.tale.check(shows, &said, holds);
    }

    /// A request, with the reply that it must get.
    fn request(
        &mut self,
        shows: &str,
        now: u64,
        which: Which,
        request: &Message<'_>,
        expected: &Message<'_>,
    ) -> Result<(), Refusal> {
        let reply = self.modules[which as usize].ask(now, request)?;
        let holds = reply == *expected;
        let reply = of_message(&reply, SHORT);
        let said = format!("{}: {reply}", of_message(request, SHORT));
        self.check(shows, now, which, &said, holds);
        Ok(())
    }

    fn agree(&mut self) -> Result<(), Refusal> {
        let heading = "Modules 1 and 2 agree on the correction of scale 3. Then module 2 sleeps.";
        self.tale.heading(heading);
        for (key, value) in [(CORRECTION, OLD), (LOAD, b"50 kg")] {
            let put = Message::Put { key, value };
            self.request("handled", AGREED, First, &put, &Message::Ok)?;
        }
        self.offer_all(AGREED, Second, First, Offered::Stored)?;
        self.compare("history: converge");
        let agreed = self.store(First).clone();
        store::merge(&mut self.asleep, &agreed)?;
        Ok(())
    }

    /// Every entry of the giver, each of which must be told the same.
    fn offer_all(
        &mut self,
        now: u64,
        receiver: Which,
        giver: Which,
        expected: Offered,
    ) -> Result<(), Refusal> {
        let image = self.store(giver).clone();
        for entry in store::entries(&image)? {
            self.offer(now, receiver, &entry, expected)?;
        }
        Ok(())
    }

    fn offer(
        &mut self,
        now: u64,
        receiver: Which,
        entry: &Entry<'_>,
        expected: Offered,
    ) -> Result<(), Refusal> {
        let told = store::offer(self.store(receiver), entry)?;
        let name = match told {
            Offered::Stored => "stored",
            Offered::Replaced => "replaced",
            Offered::Kept => "kept",
        };
        let said = format!("is offered {}: {name}", of_entry(entry, SHORT));
        self.check("history: answered", now, receiver, &said, told == expected);
        Ok(())
    }

    /// The two images, byte by byte.
    fn compare(&mut self, shows: &str) {
        let [one, two] = &self.modules;
        let (one, two) = (&one.store, &two.store);
        let equal = one.iter().zip(two).filter(|(a, b)| a == b).count();
        let said = format!("the two images: {equal} of {} bytes are equal", one.len());
        self.tale.check(shows, &said, one == two);
    }

    fn mend(&mut self) -> Result<(), Refusal> {
        let heading =
            "The point at -8 C is mended on module 1, and the test load is deleted there.";
        self.tale.heading(heading);
        let (key, value) = (CORRECTION, MENDED);
        let put = Message::Put { key, value };
        self.request("handled", MENDED_AT, First, &put, &Message::Ok)?;
        let (get, found) = (Message::Get { key }, Message::Value { value });
        self.request("get_frame_after-put_frame", MENDED_AT, First, &get, &found)?;
        let key = LOAD;
        let (del, get) = (Message::Del { key }, Message::Get { key });
        self.request("handled", MENDED_AT, First, &del, &Message::Ok)?;
        let none = Message::NotFound;
        self.request("get_frame_after_del_frame", MENDED_AT, First, &get, &none)
    }

    fn wake(&mut self) -> Result<(), Refusal> {
        let heading = "Module 2 wakes and offers module 1 what it holds.";
        self.tale.heading(heading);
        let before = self.store(First).clone();
        self.offer_all(WOKE, First, Second, Offered::Kept)?;
        let same = *self.store(First) == before;
        let said = "no key is lost, no stamp lowered: every byte is as it was";
        self.check("history: monotone", WOKE, First, said, same);
        let mended = Found::Value(MENDED);
        self.look_up("history: looked", WOKE, First, CORRECTION, mended)
    }

    fn look_up(
        &mut self,
        shows: &str,
        now: u64,
        which: Which,
        key: &[u8],
        expected: Found<'_>,
    ) -> Result<(), Refusal> {
        let found = store::lookup(self.store(which), key)?;
        let (holds, key) = (found == expected, shown(key, SHORT));
        let found = match found {
            Found::Value(value) => shown(value, SHORT),
            Found::Deleted => "DELETED".to_string(),
            Found::Never => "NEVER".to_string(),
        };
        let said = format!("looks up {key}: {found}");
        self.check(shows, now, which, &said, holds);
        Ok(())
    }

    fn merge(&mut self) -> Result<(), Refusal> {
        self.tale.heading("Both merge, either way round.");
        let givers = [self.store(Second).clone(), self.store(First).clone()];
        for (which, giver) in [First, Second].into_iter().zip(givers) {
            let taken = store::merge(self.store(which), &giver);
            let told = taken.map_or_else(Refusal::name, |_| "nothing is refused");
            let said = format!("merges the other's store: {told}");
            self.check("history: accepted", WOKE, which, &said, taken == Ok(0));
        }
        self.compare("history: converge, bytes");
        let mended = Found::Value(MENDED);
        self.look_up("history: looked", WOKE, Second, CORRECTION, mended)?;
        self.look_up("history: looked", WOKE, Second, LOAD, Found::Deleted)?;
        let (never, unseen) = (Found::Never, "history: unseen");
        self.look_up(unseen, WOKE, Second, b"comp/scale-9", never)
    }

    fn show(&mut self) -> Result<(), Refusal> {
        self.tale.heading("The store of module 2, which slept:");
        let image = self.store(Second).clone();
        let table = entries::table(&store::entries(&image)?, SHORT);
        self.tale.table("history: holds, keys", &table.to_string());
        Ok(())
    }

    fn name_owners(&mut self) -> Result<(), Failure> {
        let heading = "Which three of modules 1 to 4 should hold the correction of scale 3?";
        self.tale.heading(heading);
        let standing = cluster(&[])?.walk(CORRECTION)?.standing;
        let holds = standing.as_ref().is_some_and(|owners| owners.len() == 3);
        let said = format!(
            "all up: the STANDING owners are {}",
            owners_shown(&standing)
        );
        self.tale.check("finds_owners", &said, holds);
        let standing = cluster(&[2, 3])?.walk(CORRECTION)?.standing;
        let said = format!("2 and 3 are DOWN: {}", owners_shown(&standing));
        self.tale
            .check("too_few_exactly", &said, standing.is_none());
        Ok(())
    }
}

/// Modules 1 to 4, with some of them DOWN.
fn cluster(down: &[u8]) -> Result<Cluster, Failure> {
    Cluster::of(Site {
        ids: vec![1, 2, 3, 4],
        down: down.to_vec(),
        vnodes: 8,
        salt: 0xA5A5_A5A5,
        count: 3,
    })
}
