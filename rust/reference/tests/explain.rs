//! Which delivery is in force, and why the others are not.

mod contents;
mod delivered;

use contents::ascending;
use delivered::{active, entry, frame, tombstone};
use reference::explain::{
    explain, EARLIER_TIME, LOWER_CONTENT, LOWER_COUNT, LOWER_NODE, OTHER_KEY, SAME_ENTRY, WINNER,
};
use reference::stamp::TIME_END;
use reference::store::{self, Entry};
use reference::Refusal;
use support::Rng;

const FILL: u8 = 0xA5;

type Answer = Result<Option<usize>, Refusal>;

/// What is answered with an output of this length, and the output.
fn told(list: &[u8], key: &[u8], length: usize) -> (Answer, Vec<u8>) {
    let mut reasons = vec![FILL; length];
    let answer = explain(list, key, &mut reasons);
    (answer, reasons)
}

/// The deliveries have this winner and these reasons, in outputs as long as
/// they need, longer and shorter.
fn assert_explained(frames: &[Vec<u8>], key: &[u8], winner: Option<usize>, reasons: &[u8]) {
    let list = frames.concat();
    assert_eq!(frames.len(), reasons.len());
    for more in [0, 1, 40] {
        let mut output = reasons.to_vec();
        output.resize(reasons.len() + more, FILL);
        assert_eq!(told(&list, key, output.len()), (Ok(winner), output));
    }
    for short in 0..reasons.len() {
        assert_refused(&list, key, short, Refusal::NoRoom);
    }
}

fn assert_refused(list: &[u8], key: &[u8], length: usize, refusal: Refusal) {
    let untouched = vec![FILL; length];
    assert_eq!(told(list, key, length), (Err(refusal), untouched));
}

#[test]
fn the_bytes_of_the_reasons() {
    let reasons = [
        WINNER,
        EARLIER_TIME,
        LOWER_COUNT,
        LOWER_NODE,
        SAME_ENTRY,
        OTHER_KEY,
        LOWER_CONTENT,
    ];
    assert_eq!(reasons, [0, 1, 2, 3, 4, 5, 6]);
}

#[test]
fn the_empty_list() {
    assert_explained(&[], b"k", None, &[]);
}

#[test]
fn a_key_that_never_came() {
    let frames = [active(b"k1", (9, 9, 9), b"k"), tombstone(b"K", (0, 0, 0))];
    assert_explained(&frames, b"k", None, &[5, 5]);
    assert_explained(&frames, b"k1k", None, &[5, 5]);
}

#[test]
fn a_single_delivery() {
    let frames = [active(b"k", (0, 0, 0), b"")];
    assert_explained(&frames, b"k", Some(0), &[0]);
    let frames = [tombstone(b"k", (TIME_END - 1, u16::MAX, u8::MAX))];
    assert_explained(&frames, b"k", Some(0), &[0]);
}

#[test]
fn the_first_of_equal_deliveries_wins() {
    let (same, low) = (
        active(b"k", (7, 1, 1), b"on"),
        active(b"k", (6, 1, 1), b"off"),
    );
    let frames = [low.clone(), same.clone(), low, same.clone(), same];
    assert_explained(&frames, b"k", Some(1), &[1, 0, 1, 4, 4]);
    assert_explained(&frames[1..2], b"k", Some(0), &[0]);
    let twice = [tombstone(b"k", (0, 0, 0)), tombstone(b"k", (0, 0, 0))];
    assert_explained(&twice, b"k", Some(0), &[0, 4]);
}

/// Each reason, first alone and then with later fields that would decide the
/// other way.
fn losers() -> [(Vec<u8>, u8); 11] {
    [
        (active(b"k", (299, 5, 5), b""), EARLIER_TIME),
        (active(b"k", (299, 4, 4), b""), EARLIER_TIME),
        (active(b"k", (299, u16::MAX, u8::MAX), b"y"), EARLIER_TIME),
        (active(b"k", (300, 4, 5), b""), LOWER_COUNT),
        (active(b"k", (300, 4, u8::MAX), b"y"), LOWER_COUNT),
        (active(b"k", (300, 5, 4), b""), LOWER_NODE),
        (tombstone(b"k", (300, 5, 4)), LOWER_NODE),
        (active(b"k", (300, 5, 5), b""), LOWER_CONTENT),
        (active(b"k", (300, 5, 5), b"w\xFF"), LOWER_CONTENT),
        (active(b"k", (300, 5, 5), b"x"), SAME_ENTRY),
        (active(b"l", (301, 6, 6), b"x"), OTHER_KEY),
    ]
}

#[test]
fn each_reason_behind_the_winner() {
    let winner = active(b"k", (300, 5, 5), b"x");
    let (frames, reasons): (Vec<Vec<u8>>, Vec<u8>) = losers().into_iter().unzip();
    for (frame, &reason) in frames.iter().zip(&reasons) {
        let pair = [winner.clone(), frame.clone()];
        assert_explained(&pair, b"k", Some(0), &[0, reason]);
    }
    let all = [vec![winner], frames].concat();
    let reasons = [vec![WINNER], reasons].concat();
    assert_explained(&all, b"k", Some(0), &reasons);
}

#[test]
fn each_reason_ahead_of_the_winner() {
    let winner = active(b"k", (300, 5, 5), b"x");
    // The same entry ahead of it would be the winner itself.
    let ahead = losers().into_iter().filter(|(_, r)| *r != SAME_ENTRY);
    let (mut frames, mut reasons): (Vec<Vec<u8>>, Vec<u8>) = ahead.unzip();
    for (frame, &reason) in frames.iter().zip(&reasons) {
        let pair = [frame.clone(), winner.clone()];
        assert_explained(&pair, b"k", Some(1), &[reason, 0]);
    }
    frames.push(winner);
    reasons.push(WINNER);
    assert_explained(&frames, b"k", Some(10), &reasons);
}

#[test]
fn fields_are_compared_as_whole_numbers() {
    let stamps = [
        (255, 0, 0),
        (256, 0, 0),
        (1 << 40, 255, 0),
        (1 << 40, 256, 0),
        (1 << 40, 256, 127),
        (1 << 40, 256, 128),
    ];
    let frames = stamps.map(|stamp| active(b"k", stamp, b""));
    assert_explained(&frames, b"k", Some(5), &[1, 1, 2, 3, 3, 0]);
}

#[test]
fn a_reason_tells_of_the_winner_and_of_no_other() {
    // The first two lose to the third by other fields than to the last.
    let frames = [
        active(b"k", (5, 3, 1), b""),
        active(b"k", (5, 2, 9), b""),
        active(b"k", (5, 3, 2), b""),
        active(b"k", (6, 0, 0), b""),
    ];
    assert_explained(&frames[..3], b"k", Some(2), &[3, 2, 0]);
    assert_explained(&frames, b"k", Some(3), &[1, 1, 1, 0]);
}

#[test]
fn tombstones_win_and_lose_by_their_stamps() {
    let frames = [
        active(b"k", (1, 0, 9), b"old"),
        tombstone(b"k", (1, 1, 0)),
        active(b"k", (1, 0, 0), b"zzz"),
        tombstone(b"k", (1, 1, 0)),
    ];
    assert_explained(&frames, b"k", Some(1), &[2, 0, 2, 4]);
    let frames = [tombstone(b"k", (1, 1, 0)), active(b"k", (1, 1, 1), b"")];
    assert_explained(&frames, b"k", Some(1), &[3, 0]);
}

const STAMP: (u64, u16, u8) = (7, 1, 2);

#[test]
fn equal_stamps_are_decided_by_the_contents() {
    let contents = ascending();
    let deliver = |place: usize| {
        let (flag, value) = &contents[place];
        frame(&entry(b"k", STAMP, *flag, value))
    };
    for low in 0..contents.len() {
        let twice = [deliver(low), deliver(low)];
        assert_explained(&twice, b"k", Some(0), &[0, 4]);
        for high in low + 1..contents.len() {
            let mut pair = [deliver(low), deliver(high)];
            assert_explained(&pair, b"k", Some(1), &[6, 0]);
            pair.reverse();
            assert_explained(&pair, b"k", Some(0), &[0, 6]);
        }
    }
}

#[test]
fn more_than_two_contents_at_one_stamp() {
    let (on, off) = (active(b"k", STAMP, b"on"), active(b"k", STAMP, b"off"));
    let gone = tombstone(b"k", STAMP);
    let frames = [on.clone(), off.clone(), gone.clone(), on, gone, off];
    assert_explained(&frames, b"k", Some(2), &[6, 6, 0, 6, 4, 6]);
    assert_explained(&frames[..2], b"k", Some(0), &[0, 6]);
    assert_explained(&frames[3..], b"k", Some(1), &[6, 0, 6]);
}

#[test]
fn contents_decide_at_the_winners_stamp_alone() {
    let frames = [
        active(b"k", (9, 0, 0), b"a"),
        active(b"k", STAMP, b"on"),
        tombstone(b"k", STAMP),
        active(b"k", (9, 0, 0), b"a"),
    ];
    assert_explained(&frames, b"k", Some(0), &[0, 1, 1, 4]);
    assert_explained(&frames[1..], b"k", Some(2), &[1, 1, 0]);
    assert_explained(&frames[1..3], b"k", Some(1), &[6, 0]);
}

#[test]
fn the_contents_of_other_keys_are_not_compared() {
    let frames = [
        active(b"kk", STAMP, b"on"),
        active(b"k", STAMP, b"off"),
        tombstone(b"kk", STAMP),
        active(b"K", STAMP, b""),
    ];
    assert_explained(&frames, b"k", Some(1), &[5, 0, 5, 5]);
    assert_explained(&frames, b"kk", Some(2), &[6, 5, 0, 5]);
    assert_explained(&frames, b"never", None, &[5; 4]);
}

#[test]
fn one_stamp_over_the_whole_list() {
    let on = active(b"k", STAMP, b"on");
    let mut frames = vec![on; 1000];
    let told = |frames: &[Vec<u8>]| told(&frames.concat(), b"k", 1000);
    let mut reasons = vec![SAME_ENTRY; 1000];
    reasons[0] = WINNER;
    assert_eq!(told(&frames), (Ok(Some(0)), reasons.clone()));
    frames[999] = tombstone(b"k", STAMP);
    reasons[..999].fill(LOWER_CONTENT);
    reasons[999] = WINNER;
    assert_eq!(told(&frames), (Ok(Some(999)), reasons.clone()));
    frames[998] = tombstone(b"k", STAMP);
    (reasons[998], reasons[999]) = (WINNER, SAME_ENTRY);
    assert_eq!(told(&frames), (Ok(Some(998)), reasons));
}

#[test]
fn keys_that_begin_alike_are_others() {
    let frames = [
        active(b"ab", (9, 0, 0), b"x"),
        active(b"a", (1, 0, 0), b"y"),
        active(b"abc", (9, 0, 0), b"z"),
        active(b"ab\0", (9, 0, 0), b""),
    ];
    assert_explained(&frames, b"a", Some(1), &[5, 0, 5, 5]);
    assert_explained(&frames, b"ab", Some(0), &[0, 5, 5, 5]);
    assert_explained(&frames, b"ab\0", Some(3), &[5, 5, 5, 0]);
    assert_explained(&frames, b"A", None, &[5, 5, 5, 5]);
}

/// Keys that are not acceptable.
fn bad_keys() -> [Vec<u8>; 4] {
    [
        b"".to_vec(),
        b"_ring:".to_vec(),
        b"_sys:k".to_vec(),
        vec![b'k'; 65],
    ]
}

#[test]
fn keys_that_are_not_acceptable() {
    let list = active(b"k", (1, 0, 0), b"");
    for key in bad_keys() {
        assert_refused(&list, &key, 1, Refusal::BadKey);
        assert_refused(&[], &key, 9, Refusal::BadKey);
        // Ahead of too short an output.
        assert_refused(&list, &key, 0, Refusal::BadKey);
    }
}

#[test]
fn an_unreadable_list_comes_before_all_else() {
    let list = active(b"k", (1, 0, 0), b"");
    let cut = &list[1..];
    for length in [0, 1, 5] {
        assert_refused(cut, b"k", length, Refusal::BadArgument);
        for key in bad_keys() {
            assert_refused(cut, &key, length, Refusal::BadArgument);
        }
    }
}

#[test]
fn a_fault_of_another_keys_delivery_is_one_of_the_list() {
    let mut list = [
        active(b"k", (1, 0, 0), b""),
        active(b"other", (1, 0, 0), b""),
    ]
    .concat();
    *list.last_mut().unwrap() ^= 0x80;
    assert_refused(&list, b"k", 2, Refusal::BadArgument);
    assert_refused(&list[..list.len() - 1], b"k", 2, Refusal::BadArgument);
}

#[test]
fn a_thousand_deliveries_and_one_more() {
    let deliver = |place: usize| active(b"k", (1 + place as u64 % 500, 0, 0), b"");
    let frames: Vec<Vec<u8>> = (0..1001).map(deliver).collect();
    let list = frames[..1000].concat();
    let mut output = vec![EARLIER_TIME; 1002];
    (output[499], output[999]) = (WINNER, SAME_ENTRY);
    output[1000..].fill(FILL);
    let winner = Ok(Some(499));
    assert_eq!(told(&list, b"k", 1002), (winner, output.clone()));
    output.truncate(1000);
    assert_eq!(told(&list, b"k", 1000), (winner, output));
    assert_refused(&list, b"k", 999, Refusal::NoRoom);
    assert_refused(&frames.concat(), b"k", 1001, Refusal::BadArgument);
}

const KEYS: [&[u8]; 4] = [b"a", b"ab", b"b", b"never"];

/// An entry of one of the first three keys. Stamps and contents are few, so
/// that many are equal.
fn random_entry(rng: &mut Rng) -> Entry {
    let key = KEYS[rng.index(3)];
    let stamp = (rng.below(2), rng.below(2) as u16, rng.below(2) as u8);
    match rng.below(6) {
        0 | 1 => entry(key, stamp, 1, b""),
        2 => entry(key, stamp, 0, b""),
        3 => entry(key, stamp, 0, b"o"),
        4 => entry(key, stamp, 0, b"off"),
        _ => entry(key, stamp, 0, b"on"),
    }
}

/// What a fresh store of so many slots holds after the key's deliveries.
fn held(entries: &[Entry], key: &[u8], slots: usize) -> Option<Entry> {
    let mut image = vec![0; store::image_length(slots)];
    store::create(&mut image, slots).unwrap();
    for e in entries.iter().filter(|e| e.key == key) {
        store::offer(&mut image, key, &e.value, e.flag, e.stamp).unwrap();
    }
    let mut all = store::entries(&image).unwrap();
    assert!(all.len() <= 1);
    all.pop()
}

#[test]
fn the_winner_is_what_a_fresh_store_holds() {
    let mut rng = Rng::new(20);
    let (mut met, mut never) = ([0; 7], 0);
    for _ in 0..800 {
        let entries: Vec<Entry> = (0..rng.index(24)).map(|_| random_entry(&mut rng)).collect();
        let list: Vec<u8> = entries.iter().flat_map(frame).collect();
        for key in KEYS {
            let (answer, reasons) = told(&list, key, entries.len());
            let winner = answer.unwrap().map(|place| entries[place].clone());
            never += usize::from(winner.is_none());
            for slots in [1, 2, 100] {
                assert_eq!(held(&entries, key, slots), winner);
            }
            assert_reasons(&entries, key, winner.as_ref(), &reasons);
            for reason in reasons {
                met[usize::from(reason)] += 1;
            }
        }
    }
    assert!(
        never > 100 && met.iter().all(|&times| times > 100),
        "{never} {met:?}"
    );
}

/// Each byte tells what the entries and the winning one say.
fn assert_reasons(entries: &[Entry], key: &[u8], winner: Option<&Entry>, reasons: &[u8]) {
    let first = entries.iter().position(|e| Some(e) == winner);
    for (place, (entry, &reason)) in entries.iter().zip(reasons).enumerate() {
        let stamp = |e: &Entry| [e.stamp.phys, e.stamp.logical.into(), e.stamp.node.into()];
        let contents = |e: &Entry| (e.flag, e.value.clone());
        let expected = match winner {
            Some(won) if entry.key == key => {
                let decides = (0..3).find(|&field| stamp(entry)[field] != stamp(won)[field]);
                match decides {
                    Some(field) => field as u8 + 1,
                    None if Some(place) == first => 0,
                    None if contents(entry) < contents(won) => 6,
                    None => 4,
                }
            }
            _ => 5,
        };
        assert_eq!(reason, expected);
    }
}
