//! Checksums and the mixer.

use reference::checksum::{
    choose, crc32c, crc32c_bits, crc32c_cpu, crc32c_table, crc32c_wide, fmix32, Way,
};
use support::Rng;

fn all_ways(bytes: &[u8], expected: u32) {
    assert_eq!(crc32c_bits(bytes), expected);
    assert_eq!(crc32c_table(bytes), expected);
    assert_eq!(crc32c_wide(bytes), expected);
    if let Some(crc) = crc32c_cpu(bytes) {
        assert_eq!(crc, expected);
    }
}

#[test]
fn rfc_3720_vectors() {
    let ascending: Vec<u8> = (0..32).collect();
    let descending: Vec<u8> = (0..32).rev().collect();
    all_ways(&[0; 32], 0x8A91_36AA);
    all_ways(&[0xFF; 32], 0x62A8_AB43);
    all_ways(&ascending, 0x46DD_794E);
    all_ways(&descending, 0x113F_DB5C);
    let mut read_command = [0; 48];
    read_command[0] = 0x01;
    read_command[1] = 0xC0;
    read_command[16] = 0x14;
    read_command[22] = 0x04;
    read_command[27] = 0x14;
    read_command[31] = 0x18;
    read_command[32] = 0x28;
    read_command[40] = 0x02;
    all_ways(&read_command, 0xD996_3A56);
}

#[test]
fn common_check_word() {
    all_ways(b"123456789", 0xE306_9283);
    all_ways(b"", 0);
}

#[test]
fn four_ways_agree_on_every_length() {
    let mut rng = Rng::new(1);
    for length in 0..700 {
        let bytes = rng.bytes(length);
        all_ways(&bytes, crc32c_bits(&bytes));
        let offset = length.min(3);
        all_ways(&bytes[offset..], crc32c_bits(&bytes[offset..]));
    }
}

#[test]
fn the_chosen_way_changes_no_answer() {
    let bytes = Rng::new(2).bytes(100);
    for way in [Way::Wide, Way::Cpu, Way::Table] {
        choose(way);
        assert_eq!(crc32c(&bytes), crc32c_bits(&bytes));
    }
}

#[test]
fn fmix32_points() {
    assert_eq!(fmix32(0), 0);
    assert_eq!(fmix32(1), 0x514E_28B7);
    assert_eq!(fmix32(u32::MAX), 0x81F1_6F39);
}
