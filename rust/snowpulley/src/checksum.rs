//! Checksums.

pub use crate::raw::{crc32c, fmix32};
