//! A deletion is cleared, and a module that slept meanwhile offers what was
//! deleted.

use super::{Demo, Which, AGREED, LOAD, MINUTE};
use crate::text::time::time_of_day;
use snowpulley::store::{self, Found};
use snowpulley::{Message, Refusal};
use Which::{First, Second};

/// All that the modules hold is older.
const LINE: u64 = AGREED + 320 * MINUTE;
const NEXT_DAY: u64 = AGREED + 24 * 60 * MINUTE;

impl Demo {
    pub(super) fn purge(&mut self) -> Result<(), Refusal> {
        let heading =
            "The next day both modules, which have merged, are purged: a slot is free again.";
        self.tale.heading(heading);
        for which in [First, Second] {
            let removed = store::purge(self.store(which), LINE)?;
            let line = time_of_day(LINE);
            let said = format!("purges to {line} of the day before: tombstones removed: {removed}");
            self.check("purge_answer", NEXT_DAY, which, &said, removed == 1);
        }
        self.compare("after_purge");
        let heading =
            "Module 3 slept since they agreed and still has the test load. It does not come back.";
        self.tale.heading(heading);
        self.send_old()?;
        self.merge_old();
        self.look_up("nothing_comes_back", NEXT_DAY, First, LOAD, Found::Never)?;
        let heading = "Module 3's store is made anew, as a copy of module 1's: they merge again.";
        self.tale.heading(heading);
        self.asleep = self.store(First).clone();
        self.merge_copy();
        Ok(())
    }

    /// What module 3 holds is all below the line: of a held key the newer entry
    /// is kept, and the deleted one is refused.
    fn send_old(&mut self) -> Result<(), Refusal> {
        let asleep = self.asleep.clone();
        for entry in store::entries(&asleep)? {
            let reply = match entry.key {
                LOAD => Message::refused(Refusal::BelowLine),
                _ => Message::Ok,
            };
            self.request("handled", NEXT_DAY, First, &Message::Repl(entry), &reply)?;
        }
        Ok(())
    }

    fn merge_old(&mut self) {
        let (asleep, before) = (self.asleep.clone(), self.store(First).clone());
        let told = store::merge(self.store(First), &asleep);
        let name = told.map_or_else(Refusal::name, |_| "nothing is refused");
        let said = format!("merges module 3's store: {name}");
        let holds = told == Err(Refusal::UnequalLines) && *self.store(First) == before;
        self.check("merge_answer", NEXT_DAY, First, &said, holds);
    }

    fn merge_copy(&mut self) {
        let copy = self.asleep.clone();
        let told = store::merge(self.store(First), &copy);
        let passed = told.map_or_else(
            |refusal| refusal.name().to_string(),
            |passed| format!("entries passed over: {passed}"),
        );
        let said = format!("merges module 3's store: {passed}");
        let holds = told == Ok(0) && *self.store(First) == copy;
        self.check("history_after_purge", NEXT_DAY, First, &said, holds);
    }
}
