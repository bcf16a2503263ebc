//! The typed functions: each is called, and gives the answers of the rules'
//! points.

use snowpulley::clock::Clock;
use snowpulley::entry::{key_is_acceptable, Content, Entry, Stamp};
use snowpulley::frame::{self, Message};
use snowpulley::handler::{handle, Answer};
use snowpulley::image::{self, Header};
use snowpulley::peers::{PeerTable, State};
use snowpulley::ring::{self, Admission, Place};
use snowpulley::store::{self, Found, Offered};
use snowpulley::{checksum, raw, Refusal};

const LATE: u64 = 1 << 48;

#[test]
fn checksums() {
    assert_eq!(checksum::crc32c(b"123456789"), 0xE306_9283);
    assert_eq!(checksum::crc32c(b""), 0);
    assert_eq!(checksum::fmix32(0), 0);
    assert_eq!(checksum::fmix32(1), 0x514E_28B7);
}

#[test]
fn clock_steps() {
    let mut clock = Clock::fresh(9);
    assert_eq!(clock.words(), [0, 0, 9, 0]);
    assert_eq!(Clock::from_words([0, 65_536, 9, 0]), None);
    clock.phys = 1000;
    clock.logical = 5;
    let mut sent = clock;
    assert_eq!(sent.send(1001), Ok(()));
    assert_eq!(sent.words(), [1001, 0, 9, 0]);
    let mut near = clock;
    assert_eq!(near.receive(3000, 2, 1000), Ok(()));
    assert_eq!(near.words(), [3000, 3, 9, 0]);
    let mut far = clock;
    assert_eq!(far.receive(3001, 2, 1000), Ok(()));
    assert_eq!(far.words(), [1000, 6, 9, 1]);
    let mut equal = clock;
    assert_eq!(equal.receive(1000, 9, 1000), Ok(()));
    assert_eq!(equal.words(), [1000, 10, 9, 0]);
    assert_eq!(
        equal.receive(1000, u16::MAX, 1000),
        Err(Refusal::ClockSpent)
    );
    assert_eq!(equal.words(), [1000, 10, 9, 0]);
    clock.logical = u16::MAX;
    let before = clock;
    assert_eq!(clock.send(1000), Err(Refusal::ClockSpent));
    assert_eq!(clock.send(LATE), Err(Refusal::BadTime));
    assert_eq!(clock, before);
}

#[test]
fn peer_events() {
    let fresh = PeerTable::fresh(1, [10, 0, 0, 1], 7000, 3, 0);
    let mut table = fresh.unwrap();
    assert_eq!(table.count, 1);
    assert_eq!(table.rows[0].address, [10, 0, 0, 1]);
    assert_eq!(table.add(2, [10, 0, 0, 2], 7001, 0, 0), Ok(()));
    assert_eq!(
        table.add(2, [0; 4], 0, 0, LATE - 1),
        Err(Refusal::PeerKnown)
    );
    let states = [State::Alive, State::Suspect, State::Down];
    for (now, state) in [4_999, 5_000, 15_000].into_iter().zip(states) {
        assert_eq!(table.tick(now), Ok(()));
        assert_eq!(table.rows[1].state, state);
    }
    assert_eq!(table.heard(2, 1, 15_000), Ok(()));
    assert_eq!(table.rows[1].state, State::Alive);
    assert_eq!(table.reported(2, State::Suspect, 1, 15_000), Ok(()));
    let stale = table.reported(2, State::Down, 0, 15_000);
    assert_eq!(stale, Err(Refusal::Stale));
    assert_eq!(table.heard(1, 9, 0), Err(Refusal::SelfPeer));
    assert_eq!(table.heard(3, 9, 0), Err(Refusal::UnknownPeer));
    assert_eq!(table.tick(LATE), Err(Refusal::BadTime));
    assert_eq!(PeerTable::from_words(&table.words()), Some(table));
    assert!(table.is_sound());
    table.rows[0].state = State::Suspect;
    assert!(!table.is_sound());
}

fn table_of_three() -> PeerTable {
    let mut table = PeerTable::fresh(1, [0; 4], 0, 0, 0).unwrap();
    table.add(2, [0; 4], 0, 0, 0).unwrap();
    table.add(3, [0; 4], 0, 0, 0).unwrap();
    table
}

#[test]
fn owner_walk() {
    let place = |token: u64, node: u64, vnode: u64| token * 65536 + node * 256 + vnode;
    let ring = [
        place(100, 1, 0),
        place(200, 2, 0),
        place(200, 3, 0),
        place(900, 1, 1),
    ];
    let mut table = table_of_three();
    let mut out = [77; 4];
    let mut owners = |table: &PeerTable, position, admission, count| {
        ring::owners(&ring, table, position, admission, count, &mut out).map(|()| out)
    };
    let home = Admission::Home;
    assert_eq!(owners(&table, 200, home, 2), Ok([2, 3, 77, 77]));
    assert_eq!(owners(&table, 201, home, 2), Ok([1, 2, 77, 77]));
    assert_eq!(owners(&table, 901, home, 3), Ok([1, 2, 3, 77]));
    assert_eq!(owners(&table, 0, home, 4), Err(Refusal::BadArgument));
    table.rows[2].state = State::Down;
    let standing = owners(&table, 200, Admission::Standing, 3);
    assert_eq!(standing, Err(Refusal::TooFew));
}

#[test]
fn ring_of_ids() {
    let mut places = [u64::MAX; 9];
    assert_eq!(ring::build(&[4, 7], 4, 99, &mut places), Ok(8));
    assert_eq!(places[8], u64::MAX);
    assert!(ring::is_sound(&places[..8]));
    assert!(!ring::is_sound(&places));
    assert!(ring::is_sound(&[]));
    let first = Place {
        token: ring::token(4, 0, 99),
        node: 4,
        vnode: 0,
    };
    assert!(places.map(Place::of).contains(&first));
    assert_eq!(ring::built(&[4, 7], 4, 99).as_deref(), Ok(&places[..8]));
    assert_eq!(
        ring::build(&[4, 4], 4, 99, &mut places),
        Err(Refusal::BadArgument)
    );
    let position = checksum::fmix32(checksum::crc32c(b"k") ^ 99);
    assert_eq!(ring::key_position(b"k", 99), Ok(position));
    assert_eq!(ring::key_position(b"", 99), Err(Refusal::BadKey));
}

const STAMP: Stamp = Stamp {
    phys: 7,
    logical: 8,
    node: 9,
};

fn active<'a>(key: &'a [u8], value: &'a [u8], phys: u64) -> Entry<'a> {
    Entry {
        key,
        content: Content::Active(value),
        stamp: Stamp { phys, ..STAMP },
    }
}

fn tombstone(key: &[u8], phys: u64) -> Entry<'_> {
    Entry {
        content: Content::Tombstone,
        ..active(key, b"", phys)
    }
}

/// Every message, with the length of its frame.
const MESSAGES: [(Message<'_>, usize); 10] = [
    (
        Message::Put {
            key: b"k1",
            value: b"v",
        },
        14,
    ),
    (Message::Get { key: b"k1" }, 11),
    (Message::Del { key: b"k1" }, 11),
    (
        Message::Repl(Entry {
            key: b"k1",
            content: Content::Active(b"v"),
            stamp: STAMP,
        }),
        24,
    ),
    (
        Message::Repl(Entry {
            key: b"k1",
            content: Content::Tombstone,
            stamp: STAMP,
        }),
        23,
    ),
    (Message::Ok, 8),
    (Message::Value { value: b"v" }, 11),
    (Message::Value { value: &[7; 512] }, 522),
    (Message::NotFound, 8),
    (Message::Err { number: 5 }, 9),
];

#[test]
fn every_message_reads_back() {
    for (message, length) in MESSAGES {
        let frame = message.frame().unwrap();
        assert_eq!(frame.len(), length, "{message:?}");
        assert_eq!(frame::read(&frame), Ok(message));
        assert_eq!(frame::read(&frame[1..]), Err(Refusal::BadFrame));
        let mut short = vec![0; length - 1];
        assert_eq!(message.write(&mut short), Err(Refusal::NoRoom));
    }
}

#[test]
fn frames_of_the_points() {
    let get = Message::Get { key: b"k1" }.frame().unwrap();
    assert_eq!(get[..7], [0, 9, 2, 0, 2, 0x6B, 0x31]);
    let not_found = Message::NotFound.frame().unwrap();
    assert_eq!(not_found[..4], [0, 6, 18, 0]);
    let large = Message::Value { value: &[7; 513] };
    assert_eq!(large.frame(), Err(Refusal::ValueTooLarge));
    let late = Message::Repl(active(b"k", b"", LATE));
    assert_eq!(late.frame(), Err(Refusal::BadTime));
    assert_eq!(frame::LEN_RANGE, 6..=598);
}

#[test]
fn keys() {
    assert!(key_is_acceptable(&[0; 64]) && key_is_acceptable(b"_sys"));
    assert!(!key_is_acceptable(&[0; 65]) && !key_is_acceptable(b""));
    assert!(!key_is_acceptable(b"_sys:"));
}

#[test]
fn stamps_are_compared_from_the_left() {
    let next = |phys, logical, node| Stamp {
        phys,
        logical,
        node,
    };
    assert!(next(8, 0, 0) > STAMP && next(7, 9, 0) > STAMP && next(7, 8, 10) > STAMP);
    assert_eq!(STAMP.to_string(), "(7, 8, 9)");
}

#[test]
fn stores() {
    let mut one = vec![1; store::length(2)];
    assert_eq!(store::create(&mut one, 3), Err(Refusal::NoRoom));
    assert_eq!(store::create(&mut one, 2), Ok(()));
    assert_eq!(one[..8], [0, 2, 0, 0, 2, 0x54, 0, 0x10]);
    assert!(one[8..].iter().all(|&byte| byte == 0));
    assert_eq!(store::fresh(2).as_ref(), Ok(&one));
    assert_eq!(store::fresh(101), Err(Refusal::BadArgument));
    let mut offer = |entry| store::offer(&mut one, &entry);
    assert_eq!(offer(active(b"a", b"x", 5)), Ok(Offered::Stored));
    assert_eq!(offer(active(b"a", b"x", 5)), Ok(Offered::Kept));
    assert_eq!(offer(active(b"a", b"y", 5)), Ok(Offered::Replaced));
    assert_eq!(offer(active(b"a", b"x", 5)), Ok(Offered::Kept));
    assert_eq!(offer(active(b"a", b"z", 6)), Ok(Offered::Replaced));
    assert_eq!(offer(tombstone(b"b", 6)), Ok(Offered::Stored));
    assert_eq!(offer(active(b"c", b"", 6)), Err(Refusal::StoreFull));
    assert_eq!(store::lookup(&one, b"a"), Ok(Found::Value(b"z")));
    assert_eq!(store::lookup(&one, b"b"), Ok(Found::Deleted));
    assert_eq!(store::lookup(&one, b"c"), Ok(Found::Never));
    let held = vec![active(b"a", b"z", 6), tombstone(b"b", 6)];
    for (i, entry) in held.iter().enumerate() {
        assert_eq!(store::entry(&one, i), Ok(Some(*entry)));
    }
    assert_eq!(store::entry(&one, 2), Ok(None));
    assert_eq!(store::entry(&one, usize::MAX), Ok(None));
    assert_eq!(store::entries(&one), Ok(held));
    assert_eq!(store::entries(&store::fresh(1).unwrap()), Ok(vec![]));
    let mut two = store::fresh(2).unwrap();
    assert_eq!(store::merge(&mut two, &one), Ok(0));
    assert_eq!(one, two);
    two[2] = 9;
    assert!(!store::is_sound(&two));
    assert_eq!(store::entry(&two, 0), Err(Refusal::BadStore));
    assert_eq!(store::entries(&two), Err(Refusal::BadStore));
    assert_eq!(store::merge(&mut one, &two), Err(Refusal::BadStore));
}

#[test]
fn purges() {
    let mut one = store::fresh(2).unwrap();
    store::offer(&mut one, &tombstone(b"a", 5)).unwrap();
    store::offer(&mut one, &tombstone(b"b", 6)).unwrap();
    assert_eq!(store::line(&one), Ok(0));
    assert_eq!(store::purge(&mut one, LATE), Err(Refusal::BadTime));
    assert_eq!(store::purge(&mut one, 6), Ok(1));
    assert_eq!(store::line(&one), Ok(6));
    assert_eq!(store::purge(&mut one, 5), Err(Refusal::LowerLine));
    assert_eq!(store::purge(&mut one, 6), Ok(0));
    assert_eq!(store::entries(&one), Ok(vec![tombstone(b"b", 6)]));
    let below = store::offer(&mut one, &active(b"a", b"x", 5));
    assert_eq!(below, Err(Refusal::BelowLine));
    let mut two = store::fresh(2).unwrap();
    for key in [b"a", b"c"] {
        store::offer(&mut two, &active(key, b"x", 5)).unwrap();
    }
    let unequal = store::merge(&mut one, &two);
    assert_eq!(unequal, Err(Refusal::UnequalLines));
    assert_eq!(store::purge(&mut two, 6), Ok(0));
    assert_eq!(store::merge(&mut one, &two), Ok(2));
    assert_eq!(store::entries(&one), Ok(vec![tombstone(b"b", 6)]));
    assert_eq!(store::line(&one[1..]), Err(Refusal::BadStore));
    assert_eq!(store::purge(&mut one[1..], 0), Err(Refusal::BadStore));
}

/// Each content is above those before it. Whichever of a pair is held and
/// whichever offered, in an entry or a store, the higher one is held then.
#[test]
fn contents_decide_between_equal_stamps() {
    let values: [&[u8]; 7] = [b"", b"\0", b"+1", b"+120", b"+95", b"+95\0", b"\xFF"];
    let mut entries = values.map(|value| active(b"k", value, 5)).to_vec();
    entries.push(tombstone(b"k", 5));
    let stores = entries.iter().map(|entry| {
        let mut image = store::fresh(1).unwrap();
        assert_eq!(store::offer(&mut image, entry), Ok(Offered::Stored));
        image
    });
    let stores: Vec<Vec<u8>> = stores.collect();
    let pairs = (0..64).map(|pair| (pair / 8, pair % 8));
    for (held, offered) in pairs {
        let expected = match held < offered {
            true => Offered::Replaced,
            false => Offered::Kept,
        };
        let highest = &stores[held.max(offered)];
        let [mut one, mut two] = [(); 2].map(|()| stores[held].clone());
        assert_eq!(store::offer(&mut one, &entries[offered]), Ok(expected));
        assert_eq!(store::merge(&mut two, &stores[offered]), Ok(0));
        assert_eq!([&one, &two], [highest; 2], "{held} and {offered}");
    }
}

/// A number that is right in its lowest byte, or lowest two, is not cut to it.
#[test]
fn numbers_are_not_cut() {
    let refused = u32::from(Refusal::BadArgument.number()) << 16;
    let (table, places) = (
        table_of_three().words(),
        ring::built(&[1, 2], 1, 0).unwrap(),
    );
    let image = store::fresh(1).unwrap();
    for more in [0, 1 << 8, 1 << 16, 1 << 31] {
        let reported = raw::peers_reported(2, more + 1, 0, 0, &mut table.clone());
        let built = raw::ring_build(&[1, 2], more + 1, 0, &mut [0; 2]);
        let home = raw::owners(&places, &table, 0, more, 1, &mut [0]);
        let counted = raw::owners(&places, &table, 0, 0, more + 1, &mut [0]);
        let replica = raw::write_repl(b"k", b"v", more, 1, 0, 1, &mut [0; 23]);
        let err = raw::write_err(more + 5, &mut [0; 9]);
        let offered = raw::store_offer(&mut image.clone(), b"k", b"v", more, 1, 0, 1);
        let told = [reported, built, home, counted, replica, err, offered];
        match more {
            0 => assert_eq!(told, [0, 2, 0, 0, 23, 9, 0]),
            _ => assert_eq!(told, [refused; 7], "{more} more"),
        }
    }
}

#[test]
fn the_layout_of_an_image() {
    let mut image = store::fresh(3).unwrap();
    store::offer(&mut image, &active(b"key", b"value", 6)).unwrap();
    let header = Header {
        slots: 3,
        used: 1,
        slot_width: 596,
        first_slot: 16,
        line: 0,
        zeros: [0; 2],
    };
    assert_eq!(Header::read(&image), Some(header));
    image[8..16].copy_from_slice(&[1, 2, 3, 4, 5, 6, 7, 8]);
    let other = Header {
        line: 0x0102_0304_0506,
        zeros: [7, 8],
        ..header
    };
    assert_eq!(Header::read(&image), Some(other));
    assert_eq!(Header::read(&image[..15]), None);
    let slots: Vec<_> = image::slots(&image).collect();
    assert_eq!(slots.len(), 3);
    assert!(slots[1].is_zero() && slots[2].is_zero());
    let slot = slots[0];
    assert_eq!((slot.key_length(), slot.value_length()), (3, 5));
    assert_eq!((slot.flag(), slot.zeros()), (0, &[0; 3][..]));
    assert_eq!(slot.key(), (&b"key"[..], &[0; 61][..]));
    assert_eq!(slot.value(), (&b"value"[..], &[0; 507][..]));
    assert_eq!(slot.stamp(), Stamp { phys: 6, ..STAMP });
    assert!(slot.checksum_is_right());
    // Any bytes may be read.
    let noise = vec![0xFF; 16 + 596 + 17];
    let slot = image::slots(&noise).next().unwrap();
    assert_eq!((slot.key().0.len(), slot.value().0.len()), (64, 512));
    assert!(!slot.checksum_is_right());
    assert_eq!(image::slots(&noise).count(), 1);
    assert_eq!(image::slots(&[]).count(), 0);
}

#[test]
fn requests() {
    let mut image = store::fresh(1).unwrap();
    let mut clock = Clock::fresh(1);
    let mut reply = [0; frame::FRAME_MAX];
    let put = |key| Message::Put { key, value: b"v" }.frame().unwrap();
    let answer = handle(&mut image, &mut clock, 10, &put(b"k"), &mut reply);
    let done = Answer {
        length: 8,
        refusal: None,
    };
    assert_eq!(answer, done);
    assert_eq!(clock.words(), [10, 0, 1, 0]);
    let answer = handle(&mut image, &mut clock, 11, &put(b"l"), &mut reply);
    assert_eq!(answer.refusal, Some(Refusal::StoreFull));
    let told = frame::read(&reply[..answer.length]);
    assert_eq!(told, Ok(Message::Err { number: 6 }));
    assert_eq!(told, Ok(Message::refused(Refusal::StoreFull)));
    assert_eq!(clock.words(), [10, 0, 1, 0]);
    let short = handle(&mut image, &mut clock, 11, &put(b"l"), &mut reply[..599]);
    assert_eq!((short.length, short.refusal), (0, Some(Refusal::NoRoom)));
    store::purge(&mut image, 12).unwrap();
    let answer = handle(&mut image, &mut clock, 11, &put(b"l"), &mut reply);
    assert_eq!(answer.refusal, Some(Refusal::BelowLine));
    let told = frame::read(&reply[..answer.length]);
    assert_eq!(told, Ok(Message::Err { number: 34 }));
    assert_eq!(clock.words(), [10, 0, 1, 0]);
}

/// A PUT and a DEL are refused then, whatever they write, and a replica goes by
/// its contents.
#[test]
fn requests_with_the_held_stamp() {
    let ask = |image: &mut [u8], message: Message<'_>| {
        let words = [
            STAMP.phys,
            u64::from(STAMP.logical) - 1,
            STAMP.node.into(),
            0,
        ];
        let mut clock = Clock::from_words(words).unwrap();
        let (frame, mut reply) = (message.frame().unwrap(), [0; frame::FRAME_MAX]);
        let answer = handle(image, &mut clock, STAMP.phys, &frame, &mut reply);
        answer.refusal
    };
    let (key, held) = (b"k", b"m");
    for value in [b"l", b"m", b"n"] {
        let mut image = store::fresh(1).unwrap();
        store::offer(&mut image, &active(key, held, STAMP.phys)).unwrap();
        let before = image.clone();
        for local in [Message::Put { key, value }, Message::Del { key }] {
            let refusal = ask(&mut image, local);
            assert_eq!((refusal, &image), (Some(Refusal::Overtaken), &before));
        }
        let replica = Message::Repl(active(key, value, STAMP.phys));
        assert_eq!(ask(&mut image, replica), None);
        let higher = value.max(held);
        assert_eq!(store::lookup(&image, key), Ok(Found::Value(higher)));
    }
}
