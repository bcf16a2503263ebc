//! `snowpulley show`, on images that the reference makes.

mod common;

use common::{file, run, run_with};
use reference::stamp::{Stamp, TIME_END};
use reference::store::{create, image_length, offer, purge};
use std::path::Path;
use support::Rng;

fn stamp(phys: u64, logical: u16, node: u8) -> Stamp {
    Stamp {
        phys,
        logical,
        node,
    }
}

/// Text, bytes that are no text, an empty value, a tombstone, and long ones.
fn image() -> Vec<u8> {
    let mut image = vec![0; image_length(8)];
    create(&mut image, 8).unwrap();
    let morning = stamp(1_736_836_800_000, 0, 1);
    let mut put = |key: &[u8], value: &[u8], flag, stamp| {
        offer(&mut image, key, value, flag, stamp).unwrap();
    };
    put(b"comp/scale-3", b"-8C +95, 20C 0", 0, morning);
    put(b"comp/scale-4", b"", 0, stamp(1_736_836_800_250, 3, 2));
    put(b"gone", b"", 1, stamp(TIME_END - 1, 65_535, 255));
    put(b"long", &[b'v'; 512], 0, stamp(0, 0, 0));
    put(&[0xFF, 0], &[27, b'[', b'2', b'J'], 0, stamp(1000, 1, 9));
    put(&[b'z'; 64], &[0xEE; 512], 0, morning);
    image
}

fn show(path: &Path) -> common::Run {
    run(&["show".as_ref(), path.as_os_str()])
}

#[test]
fn a_sound_store() {
    let path = file("show-sound", &image());
    show(&path).says(0, "show-sound.txt");
    let full = run(&["show".as_ref(), "--full".as_ref(), path.as_os_str()]);
    assert_eq!(full.status, 0);
    assert!(full.out.contains(&"v".repeat(512)) && full.out.contains(&"ee".repeat(512)));
    let piped = run_with(&["show", "-"], &image());
    assert_eq!(piped.out, show(&path).out);
}

#[test]
fn a_store_that_holds_nothing_and_one_that_is_full() {
    let mut image = vec![0; image_length(1)];
    create(&mut image, 1).unwrap();
    run_with(&["show", "-"], &image).says(0, "show-empty.txt");
    offer(&mut image, b"k", b"v", 0, stamp(1, 2, 3)).unwrap();
    run_with(&["show", "-"], &image).says(0, "show-full.txt");
}

#[test]
fn a_purged_store() {
    let mut image = image();
    purge(&mut image, 1_736_836_800_001).unwrap();
    show(&file("show-purged", &image)).says(0, "show-purged.txt");
    image[14] = 1;
    show(&file("show-zeros", &image)).says(1, "show-zeros.txt");
}

#[test]
fn a_damaged_value() {
    let mut image = image();
    image[16 + 596 + 80 + 5] ^= 1;
    image[16 + 2 * 596 + 1] = 7;
    show(&file("show-damaged", &image)).says(1, "show-damaged.txt");
}

#[test]
fn a_damaged_header() {
    let mut image = image();
    image[3] = 4;
    show(&file("show-used", &image)).says(1, "show-used.txt");
    let cut = &self::image()[..16 + 596 + 100];
    show(&file("show-cut", cut)).says(1, "show-cut.txt");
}

#[test]
fn hardly_any_bytes() {
    show(&file("show-nothing", b"")).says(1, "show-nothing.txt");
    show(&file("show-text", b"not a store at all")).says(1, "show-text.txt");
}

/// Whatever the bytes are, the answer is that of the reference, and no
/// control code is printed.
#[test]
fn any_bytes_can_be_shown() {
    let mut rng = Rng::new(11);
    for _ in 0..60 {
        let mut image = image();
        for _ in 0..rng.below(3) {
            let at = rng.index(image.len());
            image[at] = rng.byte();
        }
        if rng.one_in(4) {
            image.truncate(rng.index(image.len()));
        }
        let sound = reference::store::is_sound(&image);
        let run = run_with(&["show", "-"], &image);
        assert_eq!((run.status, run.err.as_str()), (i32::from(!sound), ""));
        assert_eq!(run.out.contains("first fault:"), !sound);
        assert!(!run.out.chars().any(|c| c.is_control() && c != '\n'));
    }
}
