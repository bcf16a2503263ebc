//! Refusal numbers, keys, values and stamps.

use reference::key;
use reference::stamp::{check_time, Stamp, TIME_END};
use reference::value;
use reference::Refusal;

#[test]
fn the_numbers_of_the_refusals() {
    let numbers: Vec<u8> = Refusal::ALL.iter().map(|r| r.number()).collect();
    assert_eq!(numbers, (1..=17).chain(33..=35).collect::<Vec<u8>>());
    for number in 0..=255 {
        let refusal = Refusal::from_number(number);
        assert_eq!(refusal.is_some(), numbers.contains(&number));
        assert!(refusal.is_none_or(|r| r.number() == number));
    }
}

#[test]
fn key_lengths() {
    assert!(!key::is_acceptable(b""));
    assert!(key::is_acceptable(b"k"));
    assert!(key::is_acceptable(&[0]));
    assert!(key::is_acceptable(&[b'k'; 64]));
    assert!(!key::is_acceptable(&[b'k'; 65]));
}

#[test]
fn reserved_beginnings() {
    for begin in ["_sys:", "_ring:", "_hint:", "_gossip:"] {
        let longer = format!("{begin}x");
        let shorter = &begin[..begin.len() - 1];
        let later = format!("x{begin}");
        let capital = begin.to_uppercase();
        assert_eq!(key::check(begin.as_bytes()), Err(Refusal::BadKey));
        assert_eq!(key::check(longer.as_bytes()), Err(Refusal::BadKey));
        assert_eq!(key::check(shorter.as_bytes()), Ok(()));
        assert_eq!(key::check(later.as_bytes()), Ok(()));
        assert_eq!(key::check(capital.as_bytes()), Ok(()));
    }
}

#[test]
fn value_lengths_and_flags() {
    assert_eq!(value::check(&[0; 512]), Ok(()));
    assert_eq!(value::check(&[0; 513]), Err(Refusal::ValueTooLarge));
    assert!(value::flag_fits(0, 0) && value::flag_fits(0, 512));
    assert!(value::flag_fits(1, 0) && !value::flag_fits(1, 1));
    assert!(!value::flag_fits(2, 0) && !value::flag_fits(255, 0));
}

#[test]
fn stamps_compare_left_to_right() {
    let stamp = |phys, logical, node| Stamp {
        phys,
        logical,
        node,
    };
    let ascending = [
        Stamp::LEAST,
        stamp(0, 0, 1),
        stamp(0, 0, 255),
        stamp(0, 1, 0),
        stamp(0, 65_535, 255),
        stamp(1, 0, 0),
        stamp(TIME_END - 1, 0, 0),
    ];
    assert!(ascending.windows(2).all(|pair| pair[0] < pair[1]));
}

#[test]
fn time_range() {
    assert_eq!(check_time(0), Ok(()));
    assert_eq!(check_time((1 << 48) - 1), Ok(()));
    assert_eq!(check_time(1 << 48), Err(Refusal::BadTime));
    assert_eq!(check_time(u64::MAX), Err(Refusal::BadTime));
}
