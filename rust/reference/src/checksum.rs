//! CRC32C in four ways that must agree, and the fmix32 mixer.

use std::sync::atomic::{AtomicU8, Ordering};

/// The Castagnoli polynomial with its bits reflected.
const POLYNOMIAL: u32 = 0x82F6_3B78;

/// One bit of the checksum's division.
const fn step(crc: u32) -> u32 {
    if crc & 1 == 1 {
        (crc >> 1) ^ POLYNOMIAL
    } else {
        crc >> 1
    }
}

/// CRC32C bit by bit: the definition.
pub fn crc32c_bits(bytes: &[u8]) -> u32 {
    let mut crc = u32::MAX;
    for &byte in bytes {
        crc ^= u32::from(byte);
        for _ in 0..8 {
            crc = step(crc);
        }
    }
    !crc
}

/// `TABLES[0][b]` is the effect of byte b; `TABLES[k][b]` that of b followed
/// by k zero bytes.
static TABLES: [[u32; 256]; 16] = tables();

const fn tables() -> [[u32; 256]; 16] {
    let mut tables = [[0u32; 256]; 16];
    let mut byte = 0;
    while byte < 256 {
        let mut crc = byte as u32;
        let mut bit = 0;
        while bit < 8 {
            crc = step(crc);
            bit += 1;
        }
        tables[0][byte] = crc;
        byte += 1;
    }
    let mut k = 1;
    while k < 16 {
        let mut byte = 0;
        while byte < 256 {
            let before = tables[k - 1][byte];
            tables[k][byte] = (before >> 8) ^ tables[0][(before & 0xFF) as usize];
            byte += 1;
        }
        k += 1;
    }
    tables
}

/// Continues a started checksum over more bytes.
fn advance(crc: u32, bytes: &[u8]) -> u32 {
    bytes.iter().fold(crc, |crc, &byte| {
        let index = (crc ^ u32::from(byte)) & 0xFF;
        (crc >> 8) ^ TABLES[0][index as usize]
    })
}

/// CRC32C by one table of 256 entries.
pub fn crc32c_table(bytes: &[u8]) -> u32 {
    !advance(u32::MAX, bytes)
}

/// The ways the reference's own checksums can take.
#[derive(Clone, Copy, Debug, PartialEq, Eq)]
#[repr(u8)]
pub enum Way {
    Table,
    Wide,
    Cpu,
}

static WAY: AtomicU8 = AtomicU8::new(Way::Table as u8);

/// Chooses the way for the whole process. The answers stay the same; only the
/// benchmark has a use for it.
pub fn choose(way: Way) {
    WAY.store(way as u8, Ordering::Relaxed);
}

/// CRC32C, as the reference uses it: by one table unless another way is chosen.
pub fn crc32c(bytes: &[u8]) -> u32 {
    match WAY.load(Ordering::Relaxed) {
        way if way == Way::Wide as u8 => crc32c_wide(bytes),
        way if way == Way::Cpu as u8 => crc32c_cpu(bytes).unwrap_or_else(|| crc32c_table(bytes)),
        _ => crc32c_table(bytes),
    }
}

/// CRC32C by sixteen tables, sixteen bytes at a time.
pub fn crc32c_wide(bytes: &[u8]) -> u32 {
    let mut crc = u32::MAX;
    let mut blocks = bytes.chunks_exact(16);
    for block in &mut blocks {
        let head = crc.to_le_bytes();
        let mut next = 0;
        for i in 0..4 {
            next ^= TABLES[15 - i][usize::from(block[i] ^ head[i])];
        }
        for i in 4..16 {
            next ^= TABLES[15 - i][usize::from(block[i])];
        }
        crc = next;
    }
    !advance(crc, blocks.remainder())
}

/// CRC32C by the processor's own instruction; none where it is missing.
#[cfg(target_arch = "x86_64")]
pub fn crc32c_cpu(bytes: &[u8]) -> Option<u32> {
    if !std::arch::is_x86_feature_detected!("sse4.2") {
        return None;
    }
    // SAFETY: the line above found the instruction.
    #[allow(unsafe_code)]
    Some(unsafe { crc32c_sse42(bytes) })
}

/// CRC32C by the processor's own instruction; none where it is missing.
#[cfg(not(target_arch = "x86_64"))]
pub fn crc32c_cpu(_bytes: &[u8]) -> Option<u32> {
    None
}

#[cfg(target_arch = "x86_64")]
#[target_feature(enable = "sse4.2")]
fn crc32c_sse42(bytes: &[u8]) -> u32 {
    use std::arch::x86_64::{_mm_crc32_u64, _mm_crc32_u8};
    let mut wide = u64::from(u32::MAX);
    let mut words = bytes.chunks_exact(8);
    for word in &mut words {
        let mut eight = [0; 8];
        eight.copy_from_slice(word);
        wide = _mm_crc32_u64(wide, u64::from_le_bytes(eight));
    }
    let mut crc = wide as u32;
    for &byte in words.remainder() {
        crc = _mm_crc32_u8(crc, byte);
    }
    !crc
}

/// MurmurHash3's 32-bit finaliser.
pub fn fmix32(number: u32) -> u32 {
    let mut h = number;
    h ^= h >> 16;
    h = h.wrapping_mul(0x85EB_CA6B);
    h ^= h >> 13;
    h = h.wrapping_mul(0xC2B2_AE35);
    h ^ (h >> 16)
}
