//! Reading and writing frames.

mod bodies;

use bodies::repl_body;
use reference::checksum::crc32c_bits;
use reference::frame::{self, read, sealed, Message};
use reference::stamp::Stamp;
use reference::Refusal;
use support::Rng;

const STAMP: Stamp = Stamp {
    phys: 1000,
    logical: 5,
    node: 2,
};

fn written(message: &Message) -> Vec<u8> {
    let mut out = [0; 600];
    let length = message.write(&mut out).unwrap();
    out[..length].to_vec()
}

fn put(key: &[u8], value: &[u8]) -> Message {
    Message::Put {
        key: key.to_vec(),
        value: value.to_vec(),
    }
}

fn repl(key: &[u8], flag: u8, stamp: Stamp, value: &[u8]) -> Message {
    Message::Repl {
        key: key.to_vec(),
        flag,
        stamp,
        value: value.to_vec(),
    }
}

fn key_only(kind: u8, key: &[u8]) -> Message {
    let key = key.to_vec();
    match kind {
        frame::GET => Message::Get { key },
        _ => Message::Del { key },
    }
}

fn value(value: &[u8]) -> Message {
    Message::Value {
        value: value.to_vec(),
    }
}

fn put_body(key: &[u8], value: &[u8]) -> Vec<u8> {
    let mut body = vec![key.len() as u8];
    body.extend(key);
    body.extend((value.len() as u16).to_be_bytes());
    body.extend(value);
    body
}

/// Each message at its smallest and at its largest, with the frame's length.
fn extremes() -> Vec<(Message, usize)> {
    let (key, full) = ([b'K'; 64], [0xEE; 512]);
    let last = Stamp {
        phys: (1 << 48) - 1,
        logical: u16::MAX,
        node: u8::MAX,
    };
    vec![
        (put(b"k", b""), 12),
        (put(&key, &full), 587),
        (key_only(frame::GET, b"k"), 10),
        (key_only(frame::GET, &key), 73),
        (key_only(frame::DEL, b"k"), 10),
        (key_only(frame::DEL, &key), 73),
        (repl(b"k", 0, Stamp::LEAST, b""), 22),
        (repl(b"k", 1, Stamp::LEAST, b""), 22),
        (repl(&key, 0, last, &full), 597),
        (repl(&key, 1, last, b""), 85),
        (Message::Ok, 8),
        (value(b""), 10),
        (value(&full), 522),
        (Message::NotFound, 8),
        (Message::Err { number: 1 }, 9),
        (Message::Err { number: 255 }, 9),
    ]
}

#[test]
fn known_frames() {
    let known: [(Message, &[u8]); 6] = [
        (key_only(frame::GET, b"k1"), b"\x00\x09\x02\x00\x02k1\x91\xD8\x7F\xF5"),
        (Message::NotFound, b"\x00\x06\x12\x00\xE9\xE1\xB6\xBD"),
        (Message::Ok, b"\x00\x06\x10\x00\xCE\xA4\x86\x53"),
        (Message::Err { number: 3 }, b"\x00\x07\x14\x00\x03\x9D\x48\x89\x1E"),
        (put(b"k1", b"on"), b"\x00\x0D\x01\x00\x02k1\x00\x02on\x09\x38\x93\x43"),
        (
            repl(b"k1", 0, STAMP, b"on"),
            b"\x00\x17\x04\x00\x02k1\x00\x00\x00\x00\x00\x03\xE8\x00\x05\x02\x00\x02on\x71\xE5\x80\x29",
        ),
    ];
    for (message, bytes) in known {
        assert_eq!(written(&message), bytes);
        assert_eq!(read(bytes), Ok(message));
        let (front, checksum) = bytes.split_at(bytes.len() - 4);
        assert_eq!(crc32c_bits(&front[2..]).to_be_bytes(), checksum);
    }
}

#[test]
fn smallest_and_largest_messages() {
    for (message, length) in extremes() {
        let frame = written(&message);
        assert_eq!(frame.len(), length);
        assert_eq!(
            usize::from(frame[0]) * 256 + usize::from(frame[1]),
            length - 2
        );
        assert_eq!(read(&frame), Ok(message));
    }
}

#[test]
fn writing_touches_only_the_frames_own_bytes() {
    for (message, length) in extremes() {
        let mut out = vec![0xA5; length + 5];
        assert_eq!(message.write(&mut out), Ok(length));
        assert_eq!(out[length..], [0xA5; 5]);
        assert_eq!(out[..length], written(&message));
        let mut exact = vec![0xA5; length];
        assert_eq!(message.write(&mut exact), Ok(length));
        let mut short = vec![0xA5; length - 1];
        assert_eq!(message.write(&mut short), Err(Refusal::NoRoom));
        assert_eq!(short, vec![0xA5; length - 1]);
        assert_eq!(message.write(&mut []), Err(Refusal::NoRoom));
    }
}

#[test]
fn every_damaged_frame_is_refused() {
    for (message, _) in extremes() {
        let frame = written(&message);
        for bit in 0..frame.len() * 8 {
            let mut damaged = frame.clone();
            damaged[bit / 8] ^= 1 << (bit % 8);
            assert_eq!(read(&damaged), Err(Refusal::BadFrame));
        }
        for length in 0..frame.len() {
            assert_eq!(read(&frame[..length]), Err(Refusal::BadFrame));
        }
        for byte in 0..=255 {
            let mut longer = frame.clone();
            longer.push(byte);
            assert_eq!(read(&longer), Err(Refusal::BadFrame));
        }
    }
}

#[test]
fn frame_length_ends() {
    let largest = put_body(b"k", &[7; 588]);
    assert_eq!(sealed(frame::PUT, 0, &largest).len(), 600);
    assert_eq!(
        read(&sealed(frame::PUT, 0, &largest)),
        Err(Refusal::ValueTooLarge)
    );
    let over = put_body(b"k", &[7; 589]);
    assert_eq!(read(&sealed(frame::PUT, 0, &over)), Err(Refusal::BadFrame));
    let mut no_flags = vec![0, 5, 16];
    no_flags.extend(crc32c_bits(&[16]).to_be_bytes());
    assert_eq!(read(&no_flags), Err(Refusal::BadFrame));
}

#[test]
fn keys_and_values_one_over() {
    let cases = [
        (
            sealed(frame::PUT, 0, &put_body(&[b'k'; 65], b"")),
            Refusal::BadKey,
        ),
        (sealed(frame::PUT, 0, &put_body(b"", b"x")), Refusal::BadKey),
        (
            sealed(frame::PUT, 0, &put_body(b"_sys:a", b"x")),
            Refusal::BadKey,
        ),
        (
            sealed(frame::PUT, 0, &put_body(b"k", &[0; 513])),
            Refusal::ValueTooLarge,
        ),
        (
            sealed(frame::PUT, 0, &put_body(b"", &[0; 513])),
            Refusal::BadKey,
        ),
        (sealed(frame::GET, 0, &[0]), Refusal::BadKey),
        (sealed(frame::DEL, 0, &[0]), Refusal::BadKey),
        (
            sealed(frame::REPL, 0, &repl_body(&[b'k'; 65], 0, b"")),
            Refusal::BadKey,
        ),
        (
            sealed(frame::REPL, 0, &repl_body(b"k", 0, &[0; 513])),
            Refusal::ValueTooLarge,
        ),
        (
            sealed(frame::VALUE, 0, &put_body(b"k", &[0; 513])[2..]),
            Refusal::ValueTooLarge,
        ),
    ];
    for (frame, refusal) in cases {
        assert_eq!(read(&frame), Err(refusal));
    }
}

#[test]
fn form_comes_before_key_and_value() {
    let mut body = put_body(b"", &[0; 513]);
    body.push(0);
    assert_eq!(read(&sealed(frame::PUT, 0, &body)), Err(Refusal::BadFrame));
    for (key, flag, value) in [
        (&b""[..], 2, &b""[..]),
        (b"_sys:", 1, b"x"),
        (b"k", 1, &[0; 513]),
    ] {
        let body = repl_body(key, flag, value);
        assert_eq!(read(&sealed(frame::REPL, 0, &body)), Err(Refusal::BadFrame));
    }
}

#[test]
fn wrong_types_flags_and_bodies() {
    for kind in (0..=255).filter(|k| ![1, 2, 3, 4, 16, 17, 18, 20].contains(k)) {
        assert_eq!(read(&sealed(kind, 0, &[])), Err(Refusal::BadFrame));
        assert_eq!(read(&sealed(kind, 0, &[1, b'k'])), Err(Refusal::BadFrame));
    }
    for flags in 1..=255 {
        assert_eq!(read(&sealed(frame::OK, flags, &[])), Err(Refusal::BadFrame));
    }
    assert_eq!(read(&sealed(frame::OK, 0, &[0])), Err(Refusal::BadFrame));
    assert_eq!(read(&sealed(frame::ERR, 0, &[])), Err(Refusal::BadFrame));
    assert_eq!(read(&sealed(frame::ERR, 0, &[0])), Err(Refusal::BadFrame));
    assert_eq!(
        read(&sealed(frame::ERR, 0, &[1, 1])),
        Err(Refusal::BadFrame)
    );
    for number in 1..=255 {
        let frame = sealed(frame::ERR, 0, &[number]);
        assert_eq!(read(&frame), Ok(Message::Err { number }));
    }
}

#[test]
fn the_order_of_writing_refusals() {
    let late = Stamp {
        phys: 1 << 48,
        ..STAMP
    };
    let big = [0; 513];
    let order = [
        (repl(b"", 2, late, &big), Refusal::BadTime),
        (repl(b"", 2, STAMP, &big), Refusal::BadKey),
        (repl(b"k", 2, STAMP, &big), Refusal::ValueTooLarge),
        (repl(b"k", 1, STAMP, &big), Refusal::ValueTooLarge),
        (repl(b"k", 1, STAMP, b"x"), Refusal::BadArgument),
        (repl(b"k", 2, STAMP, b""), Refusal::BadArgument),
        (repl(b"k", 0, STAMP, b""), Refusal::NoRoom),
        (put(b"", &big), Refusal::BadKey),
        (put(b"k", &big), Refusal::ValueTooLarge),
        (put(b"k", b""), Refusal::NoRoom),
        (value(&big), Refusal::ValueTooLarge),
        (Message::Err { number: 0 }, Refusal::BadArgument),
    ];
    for (message, refusal) in order {
        assert_eq!(message.write(&mut []), Err(refusal));
    }
}

fn random_message(rng: &mut Rng) -> Message {
    let (key_length, value_length) = (1 + rng.index(64), rng.index(513));
    let (key, value) = (rng.bytes(key_length), rng.bytes(value_length));
    let flag = rng.below(2) as u8;
    let stamp = Stamp {
        phys: rng.below(1 << 48),
        logical: rng.word() as u16,
        node: rng.byte(),
    };
    match rng.below(8) {
        0 => Message::Put { key, value },
        1 => Message::Get { key },
        2 => Message::Del { key },
        3 if flag == 1 => repl(&key, 1, stamp, b""),
        3 => repl(&key, 0, stamp, &value),
        4 => Message::Ok,
        5 => Message::Value { value },
        6 => Message::NotFound,
        _ => Message::Err {
            number: 1 + rng.below(255) as u8,
        },
    }
}

#[test]
fn random_messages_come_back() {
    let mut rng = Rng::new(3);
    for _ in 0..20_000 {
        let message = random_message(&mut rng);
        assert_eq!(read(&written(&message)), Ok(message));
    }
}

/// Whether a body has the form its type asks for, found by lengths alone.
fn well_formed(kind: u8, body: &[u8]) -> bool {
    let at = |i: usize| body.get(i).map_or(0, |&b| usize::from(b));
    let two = |i: usize| at(i) * 256 + at(i + 1);
    let n = body.len();
    let k = at(0);
    match kind {
        1 => n >= k + 3 && n == k + 3 + two(k + 1),
        2 | 3 => n == k + 1 && n > 0,
        4 => {
            let fits = n >= k + 13 && n == k + 13 + two(k + 11);
            fits && (at(k + 1) == 0 || (at(k + 1) == 1 && n == k + 13))
        }
        16 | 18 => n == 0,
        17 => n >= 2 && n == 2 + two(0),
        20 => n == 1 && k != 0,
        _ => false,
    }
}

/// A body of small random numbers, so that lengths often fit.
fn random_body(rng: &mut Rng) -> Vec<u8> {
    let length = rng.index(24);
    (0..length)
        .map(|_| if rng.one_in(2) { 0 } else { rng.below(8) as u8 })
        .collect()
}

#[test]
fn random_bodies_are_judged_by_their_lengths() {
    let mut rng = Rng::new(4);
    let mut read_well = 0;
    for _ in 0..300_000 {
        let kind = rng.below(22) as u8;
        let body = random_body(&mut rng);
        let frame = sealed(kind, 0, &body);
        match read(&frame) {
            Ok(message) => {
                assert!(well_formed(kind, &body));
                assert_eq!(written(&message), frame);
                read_well += 1;
            }
            Err(Refusal::BadKey) => assert!(well_formed(kind, &body) && body[0] == 0),
            Err(refusal) => {
                assert_eq!(refusal, Refusal::BadFrame);
                assert!(!well_formed(kind, &body));
            }
        }
    }
    assert!(read_well > 1000);
}
