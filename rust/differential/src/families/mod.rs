//! The families.

pub mod checksums;
pub mod clock;
pub mod explain;
pub mod frames;
pub mod handler;
pub mod image;
pub mod list;
pub mod message;
pub mod overtaking;
pub mod peers;
pub mod purge;
pub mod reused;
pub mod ring;
pub mod store;
pub mod table;
