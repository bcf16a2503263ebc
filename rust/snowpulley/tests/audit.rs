//! The report on a list of deliveries.

use snowpulley::audit::{
    deliveries, explain, read, Delivery, Fault, Reason, Unreadable, DELIVERIES_MAX,
};
use snowpulley::checksum::crc32c;
use snowpulley::{Content, Entry, Message, Refusal, Stamp};
use snowpulley_sys::{SP_KEY_MAX, SP_VALUE_MAX};

const KEY: &[u8] = b"comp/scale-3";

fn entry<'a>(key: &'a [u8], value: &'a [u8], (phys, logical, node): (u64, u16, u8)) -> Entry<'a> {
    Entry {
        key,
        content: Content::Active(value),
        stamp: Stamp {
            phys,
            logical,
            node,
        },
    }
}

fn deleted(key: &[u8], stamp: (u64, u16, u8)) -> Entry<'_> {
    Entry {
        content: Content::Tombstone,
        ..entry(key, b"", stamp)
    }
}

fn list(entries: &[Entry<'_>]) -> Vec<u8> {
    let frame = |entry: &Entry<'_>| Message::Repl(*entry).frame().unwrap();
    entries.iter().flat_map(frame).collect()
}

/// Every reason; the winner is the fourth delivery.
fn entries() -> Vec<Entry<'static>> {
    vec![
        entry(KEY, b"+120", (6, 9, 9)),
        entry(b"zero", b"0", (9, 9, 9)),
        entry(KEY, b"+90", (7, 7, 9)),
        entry(KEY, b"+95", (7, 8, 2)),
        entry(KEY, b"+96", (7, 8, 1)),
        entry(KEY, b"+95", (7, 8, 2)),
        entry(KEY, b"+94", (7, 8, 2)),
    ]
}

type Told = Result<Option<usize>, Refusal>;

/// What is answered, and the bytes of a longer output.
fn explained<const N: usize>(list: &[u8], key: &[u8]) -> (Told, [u8; N]) {
    let mut reasons = [77; N];
    let answer = explain(list, key, &mut reasons);
    (answer, reasons)
}

#[test]
fn the_winner_and_why_each_other_one_lost() {
    let list = list(&entries());
    assert_eq!(deliveries(&list), Ok(7));
    let told = explained(&list, KEY);
    assert_eq!(told, (Ok(Some(3)), [1, 5, 2, 0, 3, 4, 6, 77]));
    let reasons = [1, 5, 2, 0, 3, 4, 6].map(|byte| Reason::of(byte).unwrap());
    let expected = [
        Reason::EarlierTime,
        Reason::OtherKey,
        Reason::LowerCount,
        Reason::Won,
        Reason::LowerNode,
        Reason::SameEntry,
        Reason::LowerContent,
    ];
    assert_eq!(reasons, expected);
    let told = explained(&list, b"zero");
    assert_eq!(told, (Ok(Some(1)), [5, 0, 5, 5, 5, 5, 5, 77]));
}

#[test]
fn a_key_that_was_never_delivered() {
    let told = explained(&list(&entries()), b"comp/scale-");
    assert_eq!(told, (Ok(None), [5, 5, 5, 5, 5, 5, 5, 77]));
    assert_eq!(explained(&[], KEY), (Ok(None), []));
    assert_eq!(deliveries(&[]), Ok(0));
}

/// Each content is above those before it, in whatever order the two came.
#[test]
fn contents_decide_between_equal_stamps() {
    let values: [&[u8]; 7] = [b"", b"\0", b"+1", b"+120", b"+95", b"+95\0", b"\xFF"];
    let stamp = (7, 8, 2);
    let mut entries = values.map(|value| entry(KEY, value, stamp)).to_vec();
    entries.push(deleted(KEY, stamp));
    let pairs = (1..entries.len()).flat_map(|high| (0..high).map(move |low| (low, high)));
    for (low, high) in pairs {
        let [lower, higher] = [low, high].map(|at| entries[at]);
        let told = explained(&list(&[lower, higher]), KEY);
        assert_eq!(told, (Ok(Some(1)), [6, 0, 77]), "{low} and {high}");
        let told = explained(&list(&[higher, lower]), KEY);
        assert_eq!(told, (Ok(Some(0)), [0, 6, 77]), "{high} and {low}");
    }
}

/// A greater stamp wins over greater contents, and the winner is the first
/// delivery of its entry.
#[test]
fn stamps_decide_before_contents() {
    let (held, other) = (entry(KEY, b"+95", (7, 8, 2)), entry(KEY, b"+94", (7, 8, 2)));
    let list = list(&[
        deleted(KEY, (7, 8, 1)),
        other,
        entry(KEY, b"+99", (7, 7, 9)),
        held,
        held,
        other,
        deleted(KEY, (6, 9, 9)),
    ]);
    let told = explained(&list, KEY);
    assert_eq!(told, (Ok(Some(3)), [3, 6, 2, 0, 4, 6, 1, 77]));
}

#[test]
fn refusals_in_the_order_of_their_checks() {
    let refused = |list: &[u8], key: &[u8]| match explained::<6>(list, key) {
        (Err(refusal), [77, 77, 77, 77, 77, 77]) => refusal,
        other => panic!("{other:?}"),
    };
    let whole = list(&entries());
    assert_eq!(refused(&whole[1..], b""), Refusal::BadArgument);
    assert_eq!(refused(&whole, b""), Refusal::BadKey);
    assert_eq!(refused(&whole, KEY), Refusal::NoRoom);
    assert_eq!(refused(&whole, b"never"), Refusal::NoRoom);
}

#[test]
fn the_deliveries_of_a_list() {
    let entries = entries();
    let list = list(&entries);
    let read = read(&list).unwrap();
    assert!(read.iter().map(|delivery| delivery.entry).eq(entries));
    // A frame has 25 bytes besides key and value.
    let places: Vec<usize> = read.iter().map(|delivery| delivery.at).collect();
    assert_eq!(places, [0, 37, 63, 99, 135, 171, 207]);
    assert_eq!(self::read(&[]), Ok(vec![]));
    let mut damaged = list.clone();
    damaged[70] ^= 1;
    assert!(self::read(&damaged).is_err());
    let Delivery { at, entry } = read[1];
    assert_eq!((at, entry.key), (37, &b"zero"[..]));
}

/// Why a list is not readable that has two right deliveries before some bytes.
fn fault(bytes: &[u8]) -> Fault<'_> {
    let mut all = list(&entries()[..2]);
    let after = all.len();
    all.extend(bytes);
    assert_eq!(deliveries(&all), Err(Refusal::BadArgument));
    let all: &[u8] = all.leak();
    let Unreadable { place, at, fault } = read(all).unwrap_err();
    assert_eq!((place, at), (2, after));
    fault
}

#[test]
fn the_first_delivery_that_cannot_be_read() {
    let frame = list(&entries()[..1]);
    assert_eq!(fault(&frame[..1]), Fault::Cut(1));
    assert_eq!(fault(&frame[..36]), Fault::Cut(36));
    assert_eq!(fault(&[0, 5, 1, 2, 3]), Fault::Len(5));
    assert_eq!(fault(&[0xFF, 0xFF]), Fault::Len(65_535));
    let mut damaged = frame.clone();
    damaged[20] ^= 1;
    assert_eq!(fault(&damaged), Fault::Refused(Refusal::BadFrame));
    // A reserved key under a right checksum.
    let mut reserved = frame.clone();
    reserved[5..10].copy_from_slice(b"_sys:");
    let checksum = crc32c(&reserved[2..33]).to_be_bytes();
    reserved[33..].copy_from_slice(&checksum);
    assert_eq!(fault(&reserved), Fault::Refused(Refusal::BadKey));
    let get = Message::Get { key: KEY };
    assert_eq!(fault(&get.frame().unwrap()), Fault::NoRepl(get));
    let ok = Message::Ok.frame().unwrap();
    assert_eq!(fault(&ok), Fault::NoRepl(Message::Ok));
}

/// The longest list, as the header gives its length.
#[test]
fn no_more_deliveries_than_a_list_may_have() {
    let (key, value) = ([b'k'; SP_KEY_MAX], [b'v'; SP_VALUE_MAX]);
    let frame = list(&[entry(&key, &value, (6, 9, 9))]);
    let most = frame.repeat(DELIVERIES_MAX);
    assert_eq!((frame.len(), most.len()), (597, 597_000));
    assert_eq!(deliveries(&most), Ok(DELIVERIES_MAX));
    assert_eq!(read(&most).map(|all| all.len()), Ok(DELIVERIES_MAX));
    let mut reasons = [77; DELIVERIES_MAX];
    assert_eq!(explain(&most, &key, &mut reasons), Ok(Some(0)));
    assert!(reasons[0] == 0 && reasons[1..].iter().all(|byte| *byte == 4));
    let (place, at) = (DELIVERIES_MAX, most.len());
    let more = [most, frame].concat();
    assert_eq!(deliveries(&more), Err(Refusal::BadArgument));
    let fault = Fault::TooMany;
    assert_eq!(read(&more), Err(Unreadable { place, at, fault }));
}

/// A fault is found exactly where the library finds the list unreadable.
#[test]
fn every_damaged_list_is_judged_as_the_library_judges_it() {
    let whole = list(&entries()[..3]);
    let same = |list: &[u8]| {
        let number = read(list).map(|all| all.len());
        assert_eq!(number.ok(), deliveries(list).ok(), "{list:?}");
    };
    for at in 0..whole.len() {
        same(&whole[..at]);
        same(&whole[at..]);
        for bit in 0..8 {
            let mut damaged = whole.clone();
            damaged[at] ^= 1 << bit;
            same(&damaged);
        }
    }
}

#[test]
fn reasons_have_bytes_and_texts() {
    for (byte, reason) in (0..).zip(Reason::ALL) {
        assert_eq!((reason as u8, Reason::of(byte)), (byte, Some(reason)));
        assert_eq!(reason.to_string(), reason.text());
    }
    assert_eq!(Reason::of(7), None);
    assert_eq!(Reason::EarlierTime.text(), "earlier time");
}
