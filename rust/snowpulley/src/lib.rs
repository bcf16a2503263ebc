//! The proved settings store through its C interface.
//!
//! `raw` has every function of the header over plain slices. The other
//! modules give them types: a clock, a peer table and the answers as Rust
//! values, and a refusal as an error. `handler::handle` returns a refusal as a
//! part of its answer, since an ERR frame can come with it.

pub mod audit;
pub mod checksum;
pub mod clock;
pub mod entry;
mod fields;
pub mod frame;
pub mod handler;
pub mod image;
pub mod peers;
pub mod raw;
pub mod refusal;
pub mod ring;
pub mod store;

pub use audit::{deliveries, explain, Reason};
pub use clock::Clock;
pub use entry::{Content, Entry, Stamp};
pub use frame::Message;
pub use peers::{PeerTable, Row, State};
pub use refusal::Refusal;

/// The README's Rust code runs as a test.
#[cfg(doctest)]
#[doc = include_str!("../../../README.md")]
struct Readme;
