//! A second implementation of the settings store's rules.
//!
//! It is written to be read and to be compared with, so it takes the plainest
//! way everywhere. One file holds one subject.

pub mod checksum;
pub mod clock;
pub mod deliveries;
pub mod explain;
pub mod frame;
pub mod key;
pub mod node;
pub mod peers;
pub mod refusal;
pub mod replay;
pub mod ring;
pub mod stamp;
pub mod store;
pub mod value;

pub use refusal::Refusal;
