//! Bytes, times, messages, tables and sentences for people to read.

pub mod bytes;
pub mod entries;
pub mod markup;
pub mod message;
pub mod table;
pub mod time;
pub mod wrap;
