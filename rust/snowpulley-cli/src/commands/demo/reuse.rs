//! A stamp that is given to two entries: module 1 is restored from a spare card.

use super::{Demo, Which, AGREED, MINUTE, SLOTS};
use crate::module::Module;
use crate::text::bytes::{shown, SHORT};
use snowpulley::store::{self, Offered};
use snowpulley::{Content, Entry, Message, Refusal};
use Which::{First, Second};

const KEY: &[u8] = b"comp/scale-4";
const WRITTEN: &[u8] = b"-8C +98, 20C 0";
/// Written later, and lower by bytes.
const AGAIN: &[u8] = b"-8C +105, 20C 0";
/// Greater by bytes than both: refused for its stamp alone.
const REFUSED: &[u8] = b"-8C +99, 20C 0";

/// All before 09:15, where the clock of module 1 stands: it stays there and
/// counts, so a stamp does not tell when it was given.
const SET_BACK: u64 = AGREED + 80 * MINUTE;
const RESTORED: u64 = SET_BACK + 30 * MINUTE;
const RESTORED_AGAIN: u64 = RESTORED + 30 * MINUTE;

impl Demo {
    pub(super) fn reuse(&mut self) -> Result<(), Refusal> {
        let heading =
            "The time is set back by mistake: module 1 stays at its last write, 09:15, and counts.";
        self.tale.heading(heading);
        let spare = self.spare()?;
        let first = self.write(SET_BACK, WRITTEN)?;
        self.offer(SET_BACK, Second, &first, Offered::Stored)?;
        let heading =
            "Module 1 is restored from a spare card, and gives the stamp again, to another value.";
        self.tale.heading(heading);
        self.modules[First as usize] = spare.clone();
        let second = self.write(RESTORED, AGAIN)?;
        self.offer(RESTORED, Second, &second, Offered::Kept)?;
        self.offer(RESTORED, First, &first, Offered::Replaced)?;
        self.compare("history: converge");
        self.both_hold(&first, &second);
        self.merge_first(spare)
    }

    /// What module 1 holds, and its clock. The store is made by a merge, so
    /// that the history speaks of it too.
    fn spare(&mut self) -> Result<Module, Refusal> {
        let mut spare = Module::fresh(1, SLOTS)?;
        store::merge(&mut spare.store, self.store(First))?;
        spare.clock = self.modules[First as usize].clock;
        Ok(spare)
    }

    /// The entry that a PUT on module 1 makes.
    fn write<'a>(&mut self, now: u64, value: &'a [u8]) -> Result<Entry<'a>, Refusal> {
        let put = Message::Put { key: KEY, value };
        self.request("handled", now, First, &put, &Message::Ok)?;
        Ok(Entry {
            key: KEY,
            content: Content::Active(value),
            stamp: self.modules[First as usize].clock.stamp(),
        })
    }

    /// Of two values with one stamp, both modules hold the greater.
    fn both_hold(&mut self, greater: &Entry<'_>, lower: &Entry<'_>) {
        let is_held = |module: &Module| {
            store::entries(&module.store).is_ok_and(|entries| entries.contains(greater))
        };
        let are_held = self.modules.iter().all(is_held);
        let [above, below] = [greater, lower].map(|entry| entry.content.value());
        let holds = are_held && greater.stamp == lower.stamp && above > below;
        let [above, below] = [above, below].map(|value| shown(value, SHORT));
        let said = format!(
            "one stamp, two values: both hold {above}, written first, but above {below} by bytes"
        );
        self.tale.check("equal_stamps", &said, holds);
    }

    fn merge_first(&mut self, spare: Module) -> Result<(), Refusal> {
        let heading =
            "Restored once more, it merges module 2's store first: then that stamp is refused.";
        self.tale.heading(heading);
        let giver = self.store(Second).clone();
        self.modules[First as usize] = spare;
        store::merge(self.store(First), &giver)?;
        let (key, value) = (KEY, REFUSED);
        let put = Message::Put { key, value };
        let number = Refusal::Overtaken as u8;
        let err = Message::Err { number };
        self.request("overtaken_exactly", RESTORED_AGAIN, First, &put, &err)
    }
}

#[cfg(test)]
mod tests {
    use super::*;
    use snowpulley::Stamp;

    fn entry(value: &[u8], logical: u16) -> Entry<'_> {
        let (phys, node) = (AGREED, 1);
        Entry {
            key: KEY,
            content: Content::Active(value),
            stamp: Stamp {
                phys,
                logical,
                node,
            },
        }
    }

    /// Whether the line holds on modules to which these were offered.
    fn line_holds(offered: [&Entry<'_>; 2], greater: &Entry<'_>, lower: &Entry<'_>) -> bool {
        let mut demo = Demo::fresh().unwrap();
        for (module, entry) in demo.modules.iter_mut().zip(offered) {
            store::offer(&mut module.store, entry).unwrap();
        }
        demo.both_hold(greater, lower);
        demo.tale.finish().1
    }

    #[test]
    fn the_line_on_equal_stamps_is_checked() {
        let (greater, lower) = (entry(WRITTEN, 0), entry(AGAIN, 0));
        assert!(line_holds([&greater, &greater], &greater, &lower));
        assert!(!line_holds([&greater, &lower], &greater, &lower));
        assert!(!line_holds([&lower, &lower], &lower, &greater));
        let later = entry(WRITTEN, 1);
        assert!(!line_holds([&later, &later], &later, &lower));
    }
}
