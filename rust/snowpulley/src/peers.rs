//! The peer table.

use crate::raw;
use crate::refusal::{split, Refusal};
use snowpulley_sys as header;
use snowpulley_sys::{SP_PEERS_COUNT, SP_PEERS_WORDS, SP_ROW_WORDS};

pub use snowpulley_sys::SP_PEERS_MAX as ROWS_MAX;

/// A peer's state; a later one is worse.
#[derive(Clone, Copy, Debug, PartialEq, Eq, PartialOrd, Ord)]
#[repr(u32)]
pub enum State {
    Alive = header::SP_STATE_ALIVE,
    Suspect = header::SP_STATE_SUSPECT,
    Down = header::SP_STATE_DOWN,
}

impl State {
    fn from_word(word: u64) -> Option<State> {
        let states = [State::Alive, State::Suspect, State::Down];
        states.into_iter().find(|&state| state as u64 == word)
    }
}

#[derive(Clone, Copy, Debug, PartialEq, Eq)]
pub struct Row {
    pub id: u8,
    pub address: [u8; 4],
    pub port: u16,
    pub state: State,
    pub incarnation: u32,
    pub seen: u64,
}

impl Row {
    fn words(&self) -> [u64; SP_ROW_WORDS] {
        let mut words = [0; SP_ROW_WORDS];
        words[header::SP_ROW_ID] = self.id.into();
        words[header::SP_ROW_ADDRESS] = u32::from_be_bytes(self.address).into();
        words[header::SP_ROW_PORT] = self.port.into();
        words[header::SP_ROW_STATE] = self.state as u64;
        words[header::SP_ROW_INCARNATION] = self.incarnation.into();
        words[header::SP_ROW_SEEN] = self.seen;
        words
    }

    fn from_words(words: &[u64; SP_ROW_WORDS]) -> Option<Row> {
        let address = u32::try_from(words[header::SP_ROW_ADDRESS]).ok()?;
        Some(Row {
            id: words[header::SP_ROW_ID].try_into().ok()?,
            address: address.to_be_bytes(),
            port: words[header::SP_ROW_PORT].try_into().ok()?,
            state: State::from_word(words[header::SP_ROW_STATE])?,
            incarnation: words[header::SP_ROW_INCARNATION].try_into().ok()?,
            seen: words[header::SP_ROW_SEEN],
        })
    }
}

/// The first `count` rows are the table.
#[derive(Clone, Copy, Debug, PartialEq, Eq)]
pub struct PeerTable {
    pub rows: [Row; ROWS_MAX],
    pub count: u8,
}

impl PeerTable {
    /// A table with the own row alone.
    pub fn fresh(
        id: u8,
        address: [u8; 4],
        port: u16,
        incarnation: u32,
        now: u64,
    ) -> Result<PeerTable, Refusal> {
        let address = u32::from_be_bytes(address);
        let mut words = [0; SP_PEERS_WORDS];
        split(raw::peers_fresh(
            id,
            address,
            port,
            incarnation,
            now,
            &mut words,
        ))?;
        Ok(PeerTable::returned(&words))
    }

    pub fn add(
        &mut self,
        id: u8,
        address: [u8; 4],
        port: u16,
        incarnation: u32,
        now: u64,
    ) -> Result<(), Refusal> {
        let address = u32::from_be_bytes(address);
        self.step(|words| raw::peers_add(id, address, port, incarnation, now, words))
    }

    /// The peer itself was heard.
    pub fn heard(&mut self, id: u8, incarnation: u32, now: u64) -> Result<(), Refusal> {
        self.step(|words| raw::peers_heard(id, incarnation, now, words))
    }

    /// Another peer told the state of this one.
    pub fn reported(
        &mut self,
        id: u8,
        state: State,
        incarnation: u32,
        now: u64,
    ) -> Result<(), Refusal> {
        self.step(|words| raw::peers_reported(id, state as u32, incarnation, now, words))
    }

    /// Time has passed.
    pub fn tick(&mut self, now: u64) -> Result<(), Refusal> {
        self.step(|words| raw::peers_tick(now, words))
    }

    pub fn is_sound(&self) -> bool {
        raw::peers_is_sound(&self.words()) == 1
    }

    pub fn words(&self) -> [u64; SP_PEERS_WORDS] {
        let mut words = [0; SP_PEERS_WORDS];
        words[SP_PEERS_COUNT] = self.count.into();
        let (places, _) = words[SP_PEERS_COUNT + 1..].as_chunks_mut();
        for (place, row) in places.iter_mut().zip(&self.rows) {
            *place = row.words();
        }
        words
    }

    /// None where a field cannot hold its word.
    pub fn from_words(words: &[u64; SP_PEERS_WORDS]) -> Option<PeerTable> {
        let (rows, _) = words[SP_PEERS_COUNT + 1..].as_chunks();
        let rows: Option<Vec<Row>> = rows.iter().map(Row::from_words).collect();
        Some(PeerTable {
            rows: rows?.try_into().ok()?,
            count: words[SP_PEERS_COUNT].try_into().ok()?,
        })
    }

    fn returned(words: &[u64; SP_PEERS_WORDS]) -> PeerTable {
        PeerTable::from_words(words).expect("the library keeps the words in range")
    }

    fn step(&mut self, call: impl FnOnce(&mut [u64]) -> u32) -> Result<(), Refusal> {
        let mut words = self.words();
        split(call(&mut words))?;
        *self = PeerTable::returned(&words);
        Ok(())
    }
}
