//! What is wrong with an image that is not a sound store.
//!
//! Whether it is sound is for the proved library to say. This names the rule
//! that is broken first: in the header, then from slot to slot.

use snowpulley::entry::key_is_acceptable;
use snowpulley::image::{self, Header, Slot, HEADER_BYTES, SLOTS, SLOT_BYTES, VALUE_MAX};

/// A broken rule: its name, and what is found in its place.
#[derive(Clone, Copy, Debug, PartialEq, Eq)]
pub struct Fault {
    pub name: &'static str,
    pub meaning: &'static str,
}

const fn fault(name: &'static str, meaning: &'static str) -> Fault {
    Fault { name, meaning }
}

const NO_HEADER: Fault = fault("NO_HEADER", "there are fewer than 16 bytes");
const SLOTS_RANGE: Fault = fault("SLOTS", "the number of slots is not from 1 to 100");
const USED: Fault = fault("USED", "more slots are used than there are");
const WIDTH: Fault = fault("SLOT_WIDTH", "the slot width is not 596");
const OFFSET: Fault = fault("FIRST_SLOT", "the offset of the first slot is not 16");
const HEADER_ZEROS: Fault = fault("HEADER_ZEROS", "bytes 14 and 15 are not both zero");
const LENGTH: Fault = fault("LENGTH", "the length is not 16 + 596 for each slot");

const KEY: Fault = fault("KEY", "the key is one that is refused with BAD_KEY");
const FLAG: Fault = fault("FLAG", "the flag is neither 0 nor 1");
const VALUE_LENGTH: Fault = fault("VALUE_LENGTH", "the value is longer than 512 bytes");
const DELETED: Fault = fault("TOMBSTONE_VALUE", "a tombstone has a value");
const SLOT_ZEROS: Fault = fault("SLOT_ZEROS", "the three bytes before the key are not zero");
const KEY_FILL: Fault = fault("KEY_FILL", "the bytes after the key are not all zero");
const VALUE_FILL: Fault = fault("VALUE_FILL", "the bytes after the value are not all zero");
const CHECKSUM: Fault = fault(
    "CHECKSUM",
    "the checksum is not that of the bytes before it",
);
const ORDER: Fault = fault("ORDER", "the key is not above that of the slot before");
const NOT_FREE: Fault = fault(
    "NOT_FREE",
    "the slot is past the used ones and not all zero",
);

/// The first fault, with its slot if it is in one.
pub fn first(image: &[u8]) -> Option<(Option<usize>, Fault)> {
    if let Some(fault) = of_header(image) {
        return Some((None, fault));
    }
    let in_slots = of_slots(image).into_iter().enumerate();
    let mut faults = in_slots.filter_map(|(slot, fault)| Some((Some(slot), fault?)));
    faults.next()
}

/// The header's first fault.
pub fn of_header(image: &[u8]) -> Option<Fault> {
    let Some(header) = Header::read(image) else {
        return Some(NO_HEADER);
    };
    first_broken(&[
        (SLOTS.contains(&header.slots.into()), SLOTS_RANGE),
        (header.used <= header.slots, USED),
        (usize::from(header.slot_width) == SLOT_BYTES, WIDTH),
        (usize::from(header.first_slot) == HEADER_BYTES, OFFSET),
        (is_zero(&header.zeros), HEADER_ZEROS),
        (image.len() == image::length(header.slots.into()), LENGTH),
    ])
}

/// The first fault of each slot that the image has room for.
pub fn of_slots(image: &[u8]) -> Vec<Option<Fault>> {
    let used = Header::read(image).map_or(0, |header| header.used.into());
    let mut before = None;
    let mut faults = Vec::new();
    for (index, slot) in image::slots(image).enumerate() {
        faults.push(if index < used {
            of_used(slot, before.replace(slot))
        } else {
            first_broken(&[(slot.is_zero(), NOT_FREE)])
        });
    }
    faults
}

fn of_used(slot: Slot<'_>, before: Option<Slot<'_>>) -> Option<Fault> {
    let ((key, key_fill), (value, value_fill)) = (slot.key(), slot.value());
    first_broken(&[
        (
            key.len() == slot.key_length() && key_is_acceptable(key),
            KEY,
        ),
        (slot.flag() <= 1, FLAG),
        (slot.value_length() <= VALUE_MAX, VALUE_LENGTH),
        (slot.flag() == 0 || value.is_empty(), DELETED),
        (is_zero(slot.zeros()), SLOT_ZEROS),
        (is_zero(key_fill), KEY_FILL),
        (is_zero(value_fill), VALUE_FILL),
        (slot.checksum_is_right(), CHECKSUM),
        (before.is_none_or(|before| before.key().0 < key), ORDER),
    ])
}

fn first_broken(rules: &[(bool, Fault)]) -> Option<Fault> {
    let broken = rules.iter().find(|(holds, _)| !holds);
    broken.map(|&(_, fault)| fault)
}

fn is_zero(bytes: &[u8]) -> bool {
    bytes.iter().all(|&byte| byte == 0)
}

#[cfg(test)]
mod tests {
    use super::*;
    use snowpulley::checksum::crc32c;
    use snowpulley::{store, Content, Entry, Stamp};

    fn entry<'a>(key: &'a [u8], content: Content<'a>) -> Entry<'a> {
        let stamp = Stamp {
            phys: 1000,
            logical: 2,
            node: 3,
        };
        Entry {
            key,
            content,
            stamp,
        }
    }

    /// Two used slots of three.
    fn image() -> Vec<u8> {
        let mut image = store::fresh(3).unwrap();
        let active = entry(b"a", Content::Active(b"value"));
        store::offer(&mut image, &active).unwrap();
        let tombstone = entry(b"b", Content::Tombstone);
        store::offer(&mut image, &tombstone).unwrap();
        image
    }

    const SECOND: usize = HEADER_BYTES + SLOT_BYTES;

    /// The image with bytes of the second slot changed and its checksum right.
    fn resealed(changes: &[(usize, u8)]) -> Vec<u8> {
        let mut image = image();
        for (at, byte) in changes {
            image[SECOND + at] = *byte;
        }
        let checksum = crc32c(&image[SECOND..SECOND + 592]).to_be_bytes();
        image[SECOND + 592..SECOND + 596].copy_from_slice(&checksum);
        image
    }

    fn changed(at: usize, byte: u8) -> Vec<u8> {
        let mut image = image();
        image[at] = byte;
        image
    }

    #[test]
    fn each_fault_of_the_header_has_its_name() {
        let name = |image: &[u8]| first(image).map(|(slot, fault)| (slot, fault.name));
        assert_eq!(name(&image()), None);
        assert_eq!(name(&image()[..15]), Some((None, "NO_HEADER")));
        assert_eq!(name(&image()[..99]), Some((None, "LENGTH")));
        assert_eq!(name(&changed(1, 0)), Some((None, "SLOTS")));
        assert_eq!(name(&changed(1, 101)), Some((None, "SLOTS")));
        assert_eq!(name(&changed(1, 2)), Some((None, "LENGTH")));
        assert_eq!(name(&changed(3, 4)), Some((None, "USED")));
        assert_eq!(name(&changed(5, 0)), Some((None, "SLOT_WIDTH")));
        assert_eq!(name(&changed(7, 0)), Some((None, "FIRST_SLOT")));
        for at in 14..16 {
            assert_eq!(name(&changed(at, 1)), Some((None, "HEADER_ZEROS")));
        }
        // Any line is right.
        for at in 8..14 {
            assert_eq!(name(&changed(at, 255)), None);
        }
    }

    #[test]
    fn each_fault_of_a_slot_has_its_name() {
        let cases: [(&[(usize, u8)], &str); 11] = [
            (&[(0, 0)], "KEY"),
            (&[(0, 65)], "KEY"),
            (&[(1, 2)], "FLAG"),
            (&[(1, 0), (2, 2), (3, 1)], "VALUE_LENGTH"),
            (&[(3, 1)], "TOMBSTONE_VALUE"),
            (&[(13, 1)], "SLOT_ZEROS"),
            (&[(15, 1)], "SLOT_ZEROS"),
            (&[(17, 1)], "KEY_FILL"),
            (&[(80, 1)], "VALUE_FILL"),
            (&[(16, b'a')], "ORDER"),
            (&[(16, b'A')], "ORDER"),
        ];
        for (changes, name) in cases {
            let image = resealed(changes);
            let (slot, fault) = first(&image).expect("a fault");
            assert_eq!((slot, fault.name), (Some(1), name), "{changes:?}");
            assert!(!store::is_sound(&image));
        }
        let stamped = changed(SECOND + 9, 9);
        assert_eq!(first(&stamped), Some((Some(1), CHECKSUM)));
        let third = changed(SECOND + SLOT_BYTES, 1);
        assert_eq!(first(&third), Some((Some(2), NOT_FREE)));
    }

    /// A fault is named exactly where the proved library finds the image
    /// unsound.
    #[test]
    fn every_changed_byte_is_judged_as_the_library_judges_it() {
        for at in 0..image().len() {
            for byte in [0, 1, 2, 65, 255] {
                let image = changed(at, byte);
                let sound = store::is_sound(&image);
                assert_eq!(first(&image).is_none(), sound, "byte {at} is {byte}");
            }
        }
        for at in 0..592 {
            for byte in [0, 1, 2, 65, 255] {
                let image = resealed(&[(at, byte)]);
                let sound = store::is_sound(&image);
                assert_eq!(first(&image).is_none(), sound, "resealed byte {at}");
            }
        }
    }
}
