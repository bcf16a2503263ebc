//! A wrong correction, and a mend of it on a module that has had it, or has not.

use snowpulley::audit::{explain, Reason};
use snowpulley::clock::Clock;
use snowpulley::frame::{self, FRAME_MAX};
use snowpulley::handler::handle;
use snowpulley::store::{self, Found};
use snowpulley::{Content, Entry, Message, Refusal, Stamp};

const KEY: &[u8] = b"comp/scale-3";
const WRONG: &[u8] = b"+120";
const RIGHT: &[u8] = b"-120";

struct Module {
    store: Vec<u8>,
    clock: Clock,
}

impl Module {
    fn fresh(node: u8) -> Module {
        Module {
            store: store::fresh(3).unwrap(),
            clock: Clock::fresh(node),
        }
    }

    /// None for OK. A refusal is also told in the reply, and changes nothing.
    fn ask(&mut self, now: u64, message: Message<'_>) -> Option<Refusal> {
        let (before, clock) = (self.store.clone(), self.clock);
        let (frame, mut reply) = (message.frame().unwrap(), [0; FRAME_MAX]);
        let answer = handle(&mut self.store, &mut self.clock, now, &frame, &mut reply);
        let told = frame::read(&reply[..answer.length]).unwrap();
        if let Some(refusal) = answer.refusal {
            assert_eq!(told, Message::refused(refusal));
            assert_eq!((&self.store, self.clock), (&before, clock));
        }
        answer.refusal
    }

    fn mend(&mut self, now: u64) -> Option<Refusal> {
        let (key, value) = (KEY, RIGHT);
        self.ask(now, Message::Put { key, value })
    }

    fn held(&self) -> Entry<'_> {
        store::entry(&self.store, 0).unwrap().unwrap()
    }

    fn value(&self) -> Found<'_> {
        store::lookup(&self.store, KEY).unwrap()
    }
}

/// The wrong correction, written by module 2.
fn wrong(phys: u64, logical: u16) -> Entry<'static> {
    Entry {
        key: KEY,
        content: Content::Active(WRONG),
        stamp: Stamp {
            phys,
            logical,
            node: 2,
        },
    }
}

/// A store that holds one entry.
fn holding(entry: Entry<'_>) -> Vec<u8> {
    let mut image = store::fresh(3).unwrap();
    store::offer(&mut image, &entry).unwrap();
    image
}

/// The mend wins there, and in every store that has both.
fn beats(module: &Module, wrong: Entry<'_>) {
    let mend = module.held();
    assert_eq!(module.value(), Found::Value(RIGHT));
    assert!(mend.stamp > wrong.stamp);
    for entries in [[mend, wrong], [wrong, mend]] {
        let mut image = store::fresh(1).unwrap();
        for entry in entries {
            store::offer(&mut image, &entry).unwrap();
        }
        assert_eq!(store::lookup(&image, KEY), Ok(Found::Value(RIGHT)));
    }
}

#[test]
fn what_came_within_the_window_is_beaten_at_any_reading() {
    for (phys, now) in [(12_000, 10_000), (12_000, 3), (11_000, 11_000), (5, 10_000)] {
        for count in [0, 9, 60_000] {
            let mut module = Module::fresh(1);
            assert_eq!(module.ask(10_000, Message::Repl(wrong(phys, count))), None);
            assert_eq!(module.mend(now), None);
            beats(&module, wrong(phys, count));
        }
    }
}

#[test]
fn what_came_from_far_ahead_overtakes_until_its_time_is_past() {
    let mut module = Module::fresh(1);
    let far = wrong(12_001, 0);
    assert_eq!(module.ask(10_000, Message::Repl(far)), None);
    assert_eq!(module.mend(10_000), Some(Refusal::Overtaken));
    assert_eq!(module.mend(12_001), Some(Refusal::Overtaken));
    assert_eq!(module.value(), Found::Value(WRONG));
    assert_eq!(module.mend(12_002), None);
    beats(&module, far);
}

/// It counts as soon as it comes within the window.
#[test]
fn what_came_from_far_ahead_and_comes_again_is_beaten() {
    let mut module = Module::fresh(1);
    let far = wrong(12_001, 0);
    assert_eq!(module.ask(10_000, Message::Repl(far)), None);
    assert_eq!(module.ask(10_001, Message::Repl(far)), None);
    assert_eq!(module.mend(10_000), None);
    beats(&module, far);
}

/// A merge moves no clock, and a new clock knows nothing of an old store.
#[test]
fn what_the_clock_never_met_overtakes_or_is_beaten() {
    let unmet = wrong(10_500, 0);
    let [mut merged, mut restarted] = [(); 2].map(|()| Module::fresh(1));
    assert_eq!(store::merge(&mut merged.store, &holding(unmet)), Ok(0));
    restarted.store = holding(unmet);
    for mut module in [merged, restarted] {
        assert_eq!(module.mend(10_000), Some(Refusal::Overtaken));
        assert_eq!(module.mend(10_500), Some(Refusal::Overtaken));
        assert_eq!(module.mend(10_501), None);
        beats(&module, unmet);
    }
}

/// A wrong deletion that a purge has cleared: a mend from before the line is
/// refused, and any other is above it.
#[test]
fn what_a_purge_has_cleared_is_beaten_too() {
    let deletion = Entry {
        content: Content::Tombstone,
        ..wrong(12_000, 7)
    };
    let mut module = Module::fresh(1);
    assert_eq!(module.ask(12_000, Message::Repl(deletion)), None);
    assert_eq!(store::purge(&mut module.store, 12_500), Ok(1));
    // A clock that knows nothing of it.
    module.clock = Clock::fresh(1);
    assert_eq!(module.mend(11_999), Some(Refusal::BelowLine));
    assert_eq!(module.mend(12_499), Some(Refusal::BelowLine));
    assert_eq!(module.mend(12_500), None);
    beats(&module, deletion);
}

/// A mend on a module that has not had the wrong correction: the module answers
/// OK, the wrong one wins where the two meet, and the report says why.
#[test]
fn a_mend_where_the_wrong_one_was_not_had_may_lose() {
    let lost = [
        (wrong(10_500, 0), Reason::EarlierTime),
        (wrong(10_000, 1), Reason::LowerCount),
        (wrong(10_000, 0), Reason::LowerNode),
    ];
    for (wrong, reason) in lost {
        let mut module = Module::fresh(1);
        assert_eq!(module.mend(10_000), None);
        loses(&mut module, wrong, reason);
    }
}

/// A correction that the module refused counts as one that it has not had: here
/// one with a spent count. Taken later, when it is far ahead, it overtakes.
#[test]
fn a_mend_where_the_wrong_one_was_refused_may_lose() {
    let spent = wrong(12_000, u16::MAX);
    let mut module = Module::fresh(1);
    let refused = module.ask(10_000, Message::Repl(spent));
    assert_eq!(refused, Some(Refusal::ClockSpent));
    assert_eq!(module.mend(10_001), None);
    loses(&mut module, spent, Reason::EarlierTime);

    let mut module = Module::fresh(1);
    let refused = module.ask(10_000, Message::Repl(spent));
    assert_eq!(refused, Some(Refusal::ClockSpent));
    assert_eq!(module.ask(9999, Message::Repl(spent)), None);
    assert_eq!(module.mend(10_001), Some(Refusal::Overtaken));
}

/// The mend that a module holds loses to the wrong correction in a merge, and
/// by the report on both.
fn loses(module: &mut Module, wrong: Entry<'_>, reason: Reason) {
    assert_eq!(module.value(), Found::Value(RIGHT));
    let frame = |entry| Message::Repl(entry).frame().unwrap();
    let list = [frame(wrong), frame(module.held())].concat();
    assert_eq!(store::merge(&mut module.store, &holding(wrong)), Ok(0));
    assert_eq!(module.value(), Found::Value(WRONG));
    let mut reasons = [0; 2];
    assert_eq!(explain(&list, KEY, &mut reasons), Ok(Some(0)));
    assert_eq!(Reason::of(reasons[1]), Some(reason));
}
