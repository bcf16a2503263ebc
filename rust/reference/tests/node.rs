//! The request handler.

mod contents;
mod stores;

use contents::ascending;
use reference::clock::Clock;
use reference::frame::{read, sealed, Message};
use reference::node::{handle, Answer};
use reference::stamp::Stamp;
use reference::store::{entries, is_sound, offer, purge};
use reference::Refusal;
use std::cmp::Ordering;
use std::collections::BTreeMap;
use stores::{fresh, stamp, LATE};
use support::Rng;

fn framed(message: &Message) -> Vec<u8> {
    let mut out = [0; 600];
    let length = message.write(&mut out).unwrap();
    out[..length].to_vec()
}

fn put(key: &[u8], value: &[u8]) -> Vec<u8> {
    framed(&Message::Put {
        key: key.to_vec(),
        value: value.to_vec(),
    })
}

fn get(key: &[u8]) -> Vec<u8> {
    framed(&Message::Get { key: key.to_vec() })
}

fn del(key: &[u8]) -> Vec<u8> {
    framed(&Message::Del { key: key.to_vec() })
}

fn repl(key: &[u8], flag: u8, stamp: Stamp, value: &[u8]) -> Vec<u8> {
    framed(&Message::Repl {
        key: key.to_vec(),
        flag,
        stamp,
        value: value.to_vec(),
    })
}

fn value(value: &[u8]) -> Message {
    Message::Value {
        value: value.to_vec(),
    }
}

fn clock(phys: u64, logical: u16) -> Clock {
    Clock {
        phys,
        logical,
        node: 1,
        skew: 0,
    }
}

/// A store and a clock, and the checks that hold for every call.
struct Node {
    clock: Clock,
    store: Vec<u8>,
}

impl Node {
    fn new(slots: usize) -> Node {
        Node {
            clock: Clock::fresh(1),
            store: fresh(slots),
        }
    }

    fn ask(&mut self, now: u64, frame: &[u8]) -> Message {
        let mut reply = [0xA5; 603];
        let before = self.store.clone();
        let answer = handle(self.clock, &mut self.store, now, frame, &mut reply);
        let message = read(&reply[..answer.length]).unwrap();
        assert!(reply[answer.length..].iter().all(|&b| b == 0xA5));
        if let Some(refusal) = answer.refusal {
            let number = refusal.number();
            assert_eq!(message, Message::Err { number });
            assert_eq!(answer.length, 9);
            assert_eq!(answer.clock, self.clock);
            assert_eq!(self.store, before);
        }
        self.clock = answer.clock;
        message
    }

    fn refused(&mut self, now: u64, frame: &[u8], refusal: Refusal) {
        let number = refusal.number();
        assert_eq!(self.ask(now, frame), Message::Err { number });
    }

    fn ok(&mut self, now: u64, frame: &[u8]) {
        assert_eq!(self.ask(now, frame), Message::Ok);
    }
}

#[test]
fn put_get_del() {
    let mut node = Node::new(2);
    assert_eq!(node.ask(1000, &get(b"k1")), Message::NotFound);
    assert_eq!(node.clock, Clock::fresh(1));
    node.ok(1000, &put(b"k1", b"on"));
    assert_eq!(node.clock, clock(1000, 0));
    assert_eq!(node.ask(1000, &get(b"k1")), value(b"on"));
    node.ok(900, &put(b"k1", b""));
    assert_eq!(node.ask(900, &get(b"k1")), value(b""));
    assert_eq!(node.clock, clock(1000, 1));
    node.ok(1001, &del(b"k1"));
    assert_eq!(node.ask(1001, &get(b"k1")), Message::NotFound);
    node.ok(1001, &del(b"never"));
    assert_eq!(node.ask(1001, &get(b"never")), Message::NotFound);
    let held = entries(&node.store).unwrap();
    assert_eq!((held[0].flag, held[0].stamp), (1, stamp(1001, 0, 1)));
    assert_eq!((held[1].flag, held[1].stamp), (1, stamp(1001, 1, 1)));
    node.refused(1002, &put(b"third", b""), Refusal::StoreFull);
    node.refused(1002, &del(b"third"), Refusal::StoreFull);
    assert_eq!(node.clock, clock(1001, 1));
}

/// A write after a REPL in the same millisecond, whose count is above the own.
#[test]
fn a_mend_in_the_same_millisecond_is_above_what_came() {
    let mut node = Node::new(2);
    node.ok(1000, &put(b"own", b""));
    node.ok(1000, &repl(b"k", 0, stamp(1000, 9, 2), b"wrong"));
    assert_eq!(node.clock, clock(1000, 10));
    node.ok(1000, &put(b"k", b"mended"));
    assert_eq!(node.ask(1000, &get(b"k")), value(b"mended"));
    let held = entries(&node.store).unwrap();
    assert_eq!(held[0].stamp, stamp(1000, 11, 1));
    // A count that cannot be passed is refused, and with it the entry.
    let last = repl(b"k", 0, stamp(1000, 65_535, 2), b"last");
    node.refused(1000, &last, Refusal::ClockSpent);
    assert_eq!(node.ask(1000, &get(b"k")), value(b"mended"));
}

#[test]
fn replicated_entries_keep_their_stamps() {
    let mut node = Node::new(3);
    node.ok(1000, &repl(b"far", 0, stamp(3001, 8, 9), b"x"));
    assert_eq!(
        node.clock,
        Clock {
            skew: 1,
            ..clock(1000, 1)
        }
    );
    assert_eq!(entries(&node.store).unwrap()[0].stamp, stamp(3001, 8, 9));
    node.ok(1000, &repl(b"near", 0, stamp(3000, 8, 9), b"y"));
    assert_eq!(
        node.clock,
        Clock {
            skew: 1,
            ..clock(3000, 9)
        }
    );
    let before = node.store.clone();
    node.ok(1000, &repl(b"near", 0, stamp(3000, 8, 9), b"x"));
    node.ok(1000, &repl(b"near", 1, stamp(2999, 9, 9), b""));
    assert_eq!(node.store, before);
    assert_eq!(
        node.clock,
        Clock {
            skew: 1,
            ..clock(3000, 11)
        }
    );
    node.ok(1000, &repl(b"near", 1, stamp(3000, 8, 10), b""));
    assert_eq!(node.ask(1000, &get(b"near")), Message::NotFound);
    node.ok(1000, &repl(b"third", 0, stamp(1, 0, 0), b""));
    node.refused(
        1000,
        &repl(b"fourth", 0, stamp(1, 0, 0), b""),
        Refusal::StoreFull,
    );
}

#[test]
fn local_writes_can_be_overtaken() {
    let mut node = Node::new(2);
    node.ok(1000, &repl(b"k", 0, stamp(9000, 0, 1), b"far"));
    node.refused(2000, &put(b"k", b"mine"), Refusal::Overtaken);
    node.refused(2000, &del(b"k"), Refusal::Overtaken);
    assert_eq!(
        node.clock,
        Clock {
            skew: 1,
            ..clock(1000, 1)
        }
    );
    node.refused(9000, &put(b"k", b"equal stamp"), Refusal::Overtaken);
    node.ok(9001, &put(b"k", b"mine"));
    assert_eq!(node.ask(9001, &get(b"k")), value(b"mine"));
}

/// The flag and the value that are held for the one key.
fn held(node: &Node) -> (u8, Vec<u8>) {
    let entry = entries(&node.store).unwrap().remove(0);
    (entry.flag, entry.value)
}

#[test]
fn local_writes_at_an_equal_stamp_are_overtaken_whatever_they_hold() {
    for there in ascending() {
        for mine in ascending() {
            let mut node = Node::new(1);
            let (flag, bytes) = &there;
            node.ok(1000, &repl(b"k", *flag, stamp(9000, 0, 1), bytes));
            let write = match &mine {
                (0, bytes) => put(b"k", bytes),
                _ => del(b"k"),
            };
            node.refused(9000, &write, Refusal::Overtaken);
            assert_eq!(held(&node), there);
            node.ok(9001, &write);
            assert_eq!(held(&node), mine);
        }
    }
}

#[test]
fn replicated_entries_at_an_equal_stamp_are_compared() {
    let contents = ascending();
    for (i, first) in contents.iter().enumerate() {
        for (j, second) in contents.iter().enumerate() {
            let mut node = Node::new(1);
            for (flag, bytes) in [first, second] {
                node.ok(1000, &repl(b"k", *flag, stamp(1000, 5, 2), bytes));
            }
            assert_eq!(held(&node), contents[i.max(j)]);
            assert_eq!(node.clock, clock(1000, 7));
        }
    }
}

/// Two slots, one of them with a key of which a tombstone was removed.
fn purged() -> Node {
    let mut node = Node::new(2);
    node.ok(1000, &put(b"held", b"v"));
    node.ok(1001, &del(b"gone"));
    assert_eq!(purge(&mut node.store, 2000), Ok(1));
    node
}

#[test]
fn below_the_line_keys_that_are_not_held_are_refused() {
    let mut node = purged();
    for now in [1001, 1500, 1999] {
        node.refused(now, &put(b"gone", b"old"), Refusal::BelowLine);
        node.refused(now, &del(b"gone"), Refusal::BelowLine);
    }
    for flag in [0, 1] {
        let below = repl(b"new", flag, stamp(1999, 9, 9), b"");
        node.refused(2000, &below, Refusal::BelowLine);
        node.refused(5000, &below, Refusal::BelowLine);
    }
    assert_eq!(node.clock, clock(1001, 0));
    assert_eq!(node.ask(1500, &get(b"gone")), Message::NotFound);
    node.ok(1500, &put(b"held", b"w"));
    assert_eq!(node.ask(1500, &get(b"held")), value(b"w"));
    node.ok(1501, &repl(b"held", 0, stamp(1400, 0, 2), b"kept"));
    node.ok(1501, &del(b"held"));
    node.ok(2000, &put(b"gone", b"new"));
    assert_eq!(node.ask(2000, &get(b"gone")), value(b"new"));
}

/// A full store: 34 comes before 6, and 8 before both.
#[test]
fn the_line_comes_before_the_full_store() {
    let mut node = purged();
    node.ok(2000, &put(b"second", b""));
    for (phys, refusal) in [(1999, Refusal::BelowLine), (2000, Refusal::StoreFull)] {
        let new = repl(b"third", 0, stamp(phys, 0, 2), b"");
        node.refused(2000, &new, refusal);
    }
    node.clock = clock(1500, 7);
    node.refused(1999, &put(b"third", b""), Refusal::BelowLine);
    node.refused(2000, &put(b"third", b""), Refusal::StoreFull);
    node.clock = clock(1500, 65_535);
    node.refused(1500, &put(b"third", b""), Refusal::ClockSpent);
}

#[test]
fn a_spent_clock_stops_writes_but_not_reads() {
    let mut node = Node::new(1);
    node.ok(1000, &repl(b"k", 0, stamp(1500, 65_534, 2), b"v"));
    assert_eq!(node.clock, clock(1500, 65_535));
    node.refused(1500, &put(b"k", b""), Refusal::ClockSpent);
    node.refused(1500, &put(b"other", b""), Refusal::ClockSpent);
    node.refused(1000, &del(b"k"), Refusal::ClockSpent);
    node.refused(
        1500,
        &repl(b"k", 0, stamp(1500, 0, 0), b""),
        Refusal::ClockSpent,
    );
    node.refused(
        1500,
        &repl(b"k", 0, stamp(9000, 0, 0), b""),
        Refusal::ClockSpent,
    );
    node.refused(
        1500,
        &repl(b"k", 0, stamp(1501, 65_535, 0), b""),
        Refusal::ClockSpent,
    );
    assert_eq!(node.ask(1500, &get(b"k")), value(b"v"));
    node.ok(1501, &put(b"k", b"w"));
}

#[test]
fn reply_types_are_bad_frames() {
    let mut node = Node::new(1);
    let too_large = [vec![2, 1], vec![0; 513]].concat();
    let frames = [
        framed(&Message::Ok),
        framed(&value(b"v")),
        framed(&Message::NotFound),
        framed(&Message::Err { number: 4 }),
        sealed(17, 0, &too_large),
        sealed(19, 0, &[]),
        sealed(0, 0, &[]),
        sealed(5, 0, &[]),
        Vec::new(),
        vec![0],
        vec![0; 601],
    ];
    for frame in frames {
        node.refused(1000, &frame, Refusal::BadFrame);
    }
}

#[test]
fn largest_request_and_reply() {
    let mut node = Node::new(1);
    let (key, full) = ([b'K'; 64], [9; 512]);
    node.ok(1, &put(&key, &full));
    assert_eq!(node.ask(1, &get(&key)), value(&full));
    node.ok(1, &repl(&key, 0, stamp(LATE - 1, 65_535, 255), &full));
    node.refused(LATE - 1, &put(&key, b""), Refusal::Overtaken);
}

/// Answers with every fault from `from` on, in the handler's order of checks.
fn with_faults_from(from: usize) -> Answer {
    let mut store = fresh(1);
    offer(&mut store, b"held", b"", 0, stamp(9000, 0, 0)).unwrap();
    if from <= 1 {
        store[15] = 1;
    }
    let now = if from <= 2 { LATE } else { 1000 };
    let logical = if from <= 6 { 65_535 } else { 0 };
    let mut frame = match from {
        0..=4 => sealed(1, 0, &[vec![0, 2, 1], vec![0; 513]].concat()),
        5 => sealed(1, 0, &[vec![1, b'k', 2, 1], vec![0; 513]].concat()),
        6 | 7 => put(b"other", b""),
        _ => put(b"held", b""),
    };
    if from <= 3 {
        frame.push(0);
    }
    let mut reply = [0xA5; 600];
    let room = if from == 0 { 599 } else { 600 };
    let before = store.clone();
    let answer = handle(
        clock(1000, logical),
        &mut store,
        now,
        &frame,
        &mut reply[..room],
    );
    assert_eq!(answer.clock, clock(1000, logical));
    assert_eq!(store, before);
    assert!(reply[answer.length..].iter().all(|&b| b == 0xA5));
    answer
}

#[test]
fn the_order_of_refusals() {
    let order = [4, 5, 9, 3, 1, 2, 8, 6, 7];
    for (from, number) in order.into_iter().enumerate() {
        let answer = with_faults_from(from);
        assert_eq!(answer.refusal, Refusal::from_number(number));
        assert_eq!(answer.length, if number == 4 { 0 } else { 9 });
    }
}

#[test]
fn times_are_checked_for_every_request() {
    let mut node = Node::new(1);
    for frame in [get(b"k"), put(b"k", b""), vec![0]] {
        node.refused(LATE, &frame, Refusal::BadTime);
        node.refused(u64::MAX, &frame, Refusal::BadTime);
    }
    node.clock.phys = LATE;
    node.refused(0, &get(b"k"), Refusal::BadTime);
    node.refused(0, &put(b"k", b""), Refusal::BadTime);
    node.refused(0, &[], Refusal::BadTime);
}

/// Entries by their keys; one without a value is a tombstone.
type Held = BTreeMap<Vec<u8>, (Stamp, Option<Vec<u8>>)>;

fn held_by(store: &[u8]) -> Held {
    let entries = entries(store).unwrap().into_iter();
    entries
        .map(|e| (e.key, (e.stamp, (e.flag == 0).then_some(e.value))))
        .collect()
}

/// The handler's rules once more, over a map.
struct Naive {
    slots: usize,
    line: u64,
    clock: (u64, u64),
    skew: u32,
    held: Held,
    /// How each entry that came with a held stamp compared with the held one.
    ties: Vec<Ordering>,
    /// Of each stamp taken with the clock's own time: whether it was far ahead,
    /// and how its count compared with the clock's.
    equal_times: Vec<(bool, Ordering)>,
}

impl Naive {
    fn new(slots: usize) -> Naive {
        Naive {
            slots,
            line: 0,
            clock: (0, 0),
            skew: 0,
            held: Held::new(),
            ties: Vec::new(),
            equal_times: Vec::new(),
        }
    }

    fn answer(&mut self, now: u64, request: &Message) -> Message {
        let outcome = match request {
            Message::Put { key, value } => self.local(now, key, Some(value.clone())),
            Message::Del { key } => self.local(now, key, None),
            Message::Get { key } => {
                return match self.held.get(key) {
                    Some((_, Some(value))) => Message::Value {
                        value: value.clone(),
                    },
                    _ => Message::NotFound,
                }
            }
            Message::Repl {
                key,
                flag,
                stamp,
                value,
            } => self.replicate(now, key, *stamp, (*flag == 0).then(|| value.clone())),
            _ => Err(3),
        };
        outcome.map_or_else(|number| Message::Err { number }, |()| Message::Ok)
    }

    fn local(&mut self, now: u64, key: &[u8], value: Option<Vec<u8>>) -> Result<(), u8> {
        let next = if now > self.clock.0 {
            (now, 0)
        } else {
            (self.clock.0, self.clock.1 + 1)
        };
        if next.1 > 65_535 {
            return Err(8);
        }
        let stamp = stamp(next.0, next.1 as u16, 1);
        if self.held.get(key).is_some_and(|(held, _)| *held >= stamp) {
            return Err(7);
        }
        self.hold(key, stamp, value)?;
        self.clock = next;
        Ok(())
    }

    fn replicate(
        &mut self,
        now: u64,
        key: &[u8],
        stamp: Stamp,
        value: Option<Vec<u8>>,
    ) -> Result<(), u8> {
        let far = stamp.phys > now + 2000;
        let (came, at) = ((stamp.phys, u64::from(stamp.logical)), self.clock);
        let from = if far {
            (at.0.max(now), at.1)
        } else {
            at.max(came)
        };
        let next = (from.0, from.1 + 1);
        if next.1 > 65_535 {
            return Err(8);
        }
        if came.0 == at.0 {
            self.equal_times.push((far, came.1.cmp(&at.1)));
        }
        if self.is_above(key, stamp, value.as_ref()) {
            self.hold(key, stamp, value)?;
        }
        self.clock = next;
        self.skew += u32::from(far);
        Ok(())
    }

    /// Whether an entry is above the held one of its key, if there is one.
    fn is_above(&mut self, key: &[u8], stamp: Stamp, value: Option<&Vec<u8>>) -> bool {
        let Some((held, old)) = self.held.get(key) else {
            return true;
        };
        if stamp != *held {
            return stamp > *held;
        }
        let (new, old) = ((value.is_none(), value), (old.is_none(), old.as_ref()));
        self.ties.push(new.cmp(&old));
        new > old
    }

    fn hold(&mut self, key: &[u8], stamp: Stamp, value: Option<Vec<u8>>) -> Result<(), u8> {
        let is_new = !self.held.contains_key(key);
        if is_new && stamp.phys < self.line {
            return Err(34);
        }
        if is_new && self.held.len() == self.slots {
            return Err(6);
        }
        self.held.insert(key.to_vec(), (stamp, value));
        Ok(())
    }

    fn purge(&mut self, line: u64) {
        self.line = line;
        self.held
            .retain(|_, (stamp, value)| value.is_some() || stamp.phys >= line);
    }
}

/// A request at a time, to a clock whose own time is `own`.
fn random_request(rng: &mut Rng, now: u64, own: u64) -> Message {
    let key = vec![b'a' + rng.below(6) as u8; 1 + rng.index(2)];
    let length = rng.index(6);
    let value = rng.bytes(length);
    let logical = if rng.one_in(3) {
        65_533 + rng.below(3)
    } else {
        rng.below(4)
    };
    let stamp = Stamp {
        phys: match rng.below(4) {
            0 => own,
            _ => now.saturating_sub(20) + rng.below(40) + rng.below(2) * 1980,
        },
        logical: logical as u16,
        node: rng.below(3) as u8,
    };
    match rng.below(10) {
        0..=2 => Message::Put { key, value },
        3 | 4 => Message::Get { key },
        5 => Message::Del { key },
        6 => Message::Repl {
            key,
            flag: 1,
            stamp,
            value: Vec::new(),
        },
        7 | 8 => Message::Repl {
            key,
            flag: 0,
            stamp,
            value,
        },
        _ => Message::Ok,
    }
}

/// A REPL with the key and the stamp of a held entry, if there is one.
fn tied_request(rng: &mut Rng, held: &Held) -> Option<Message> {
    let (key, (stamp, value)) = held.iter().nth(rng.index(held.len().max(1)))?;
    let mut value = value.clone().unwrap_or_default();
    let flag = u8::from(rng.one_in(4));
    match rng.below(4) {
        _ if flag == 1 => value.clear(),
        0 => value.push(rng.byte()),
        1 => value.truncate(rng.index(3)),
        2 => value = rng.bytes(2),
        _ => {}
    }
    Some(Message::Repl {
        key: key.clone(),
        flag,
        stamp: *stamp,
        value,
    })
}

fn next_request(rng: &mut Rng, now: u64, naive: &Naive) -> Message {
    let tied = rng.one_in(6).then(|| tied_request(rng, &naive.held));
    tied.flatten()
        .unwrap_or_else(|| random_request(rng, now, naive.clock.0))
}

#[test]
fn random_requests_agree_with_the_naive_handler() {
    let mut rng = Rng::new(15);
    let mut numbers = [0; 256];
    let (mut ties, mut equal_times) = (Vec::new(), Vec::new());
    for round in 0..60 {
        let mut node = Node::new(1 + round % 8);
        let mut naive = Naive::new(1 + round % 8);
        let mut now = 0;
        for _ in 0..300 {
            now = (now + rng.below(12)).saturating_sub(rng.below(10));
            if rng.one_in(20) {
                let line = naive.line.max((now + 4).saturating_sub(rng.below(20)));
                purge(&mut node.store, line).unwrap();
                naive.purge(line);
            }
            let request = next_request(&mut rng, now, &naive);
            let reply = node.ask(now, &framed(&request));
            assert_eq!(reply, naive.answer(now, &request));
            assert_eq!(
                (node.clock.phys, u64::from(node.clock.logical)),
                naive.clock
            );
            assert_eq!(node.clock.skew, naive.skew);
            if let Message::Err { number } = reply {
                numbers[usize::from(number)] += 1;
            }
        }
        assert!(is_sound(&node.store));
        assert_eq!(held_by(&node.store), naive.held);
        ties.extend(naive.ties);
        equal_times.extend(naive.equal_times);
    }
    for number in [3, 6, 7, 8, 34] {
        assert!(numbers[number] > 10, "{numbers:?}");
    }
    for order in [Ordering::Less, Ordering::Equal, Ordering::Greater] {
        assert!(ties.iter().filter(|tie| **tie == order).count() > 100);
        let inside = equal_times.iter().filter(|met| **met == (false, order));
        assert!(inside.count() > 10, "{order:?}");
    }
    assert!(equal_times.iter().filter(|(far, _)| *far).count() > 10);
}
