//! Random entries, and the image that some entries must have.

use reference::checksum::crc32c_bits;
use reference::stamp::Stamp;
use support::Rng;

/// One delivered entry: key, stamp, flag, value. They are compared in that
/// order.
pub type Delivered = (Vec<u8>, Stamp, u8, Vec<u8>);

/// An entry from a small choice of keys, stamps and contents, so that entries
/// often share key and stamp, and often differ then.
pub fn random_entry(rng: &mut Rng) -> Delivered {
    let keys = [&b"a"[..], b"ab", b"b", b"k\0", b"k", &[255; 64], b"z"];
    let key = keys[rng.index(keys.len())].to_vec();
    let stamp = Stamp {
        phys: rng.below(3),
        logical: rng.below(2) as u16,
        node: rng.below(2) as u8,
    };
    if rng.one_in(4) {
        return (key, stamp, 1, Vec::new());
    }
    let length = if rng.one_in(5) {
        511 + rng.index(2)
    } else {
        rng.index(4)
    };
    let mut value = vec![1; length];
    if let Some(last) = value.last_mut() {
        *last = rng.below(3) as u8;
    }
    (key, stamp, 0, value)
}

/// The image of a store with this line that holds these entries, which are in
/// key order.
pub fn image(slots: usize, line: u64, held: &[&Delivered]) -> Vec<u8> {
    let (slots, used) = (slots as u8, held.len() as u8);
    let mut image = vec![0, slots, 0, used, 2, 0x54, 0, 0x10];
    image.extend(&line.to_be_bytes()[2..]);
    image.extend([0; 2]);
    for (key, stamp, flag, value) in held {
        let start = image.len();
        image.extend([
            key.len() as u8,
            *flag,
            (value.len() >> 8) as u8,
            value.len() as u8,
        ]);
        image.extend(&stamp.phys.to_be_bytes()[2..]);
        image.extend([(stamp.logical >> 8) as u8, stamp.logical as u8, stamp.node]);
        image.extend([0; 3]);
        image.extend(key.iter().copied().chain([0; 64]).take(64));
        image.extend(value.iter().copied().chain([0; 512]).take(512));
        image.extend(crc32c_bits(&image[start..]).to_be_bytes());
    }
    image.resize(16 + 596 * usize::from(slots), 0);
    image
}
