//! The clock.

use crate::entry::Stamp;
use crate::raw;
use crate::refusal::{split, Refusal};
use snowpulley_sys::{
    SP_CLOCK_LOGICAL, SP_CLOCK_NODE, SP_CLOCK_PHYS, SP_CLOCK_SKEW_COUNT, SP_CLOCK_WORDS,
};

#[derive(Clone, Copy, Debug, PartialEq, Eq)]
pub struct Clock {
    pub phys: u64,
    pub logical: u16,
    pub node: u8,
    pub skew: u32,
}

impl Clock {
    /// A new clock of a node.
    pub fn fresh(node: u8) -> Clock {
        let mut words = [0; SP_CLOCK_WORDS];
        split(raw::clock_fresh(node, &mut words)).expect("four words are enough");
        Clock::returned(words)
    }

    /// Moves the clock on for a local write; its stamp is then the write's.
    pub fn send(&mut self, now: u64) -> Result<(), Refusal> {
        self.step(|words| raw::clock_send(now, words))
    }

    /// Moves the clock on for the received stamp (phys, logical): above it,
    /// unless it is far ahead.
    pub fn receive(&mut self, phys: u64, logical: u16, now: u64) -> Result<(), Refusal> {
        self.step(|words| raw::clock_receive(phys, logical, now, words))
    }

    /// The stamp that the clock stands at.
    pub fn stamp(self) -> Stamp {
        Stamp {
            phys: self.phys,
            logical: self.logical,
            node: self.node,
        }
    }

    pub fn words(self) -> [u64; SP_CLOCK_WORDS] {
        let mut words = [0; SP_CLOCK_WORDS];
        words[SP_CLOCK_PHYS] = self.phys;
        words[SP_CLOCK_LOGICAL] = self.logical.into();
        words[SP_CLOCK_NODE] = self.node.into();
        words[SP_CLOCK_SKEW_COUNT] = self.skew.into();
        words
    }

    /// None where a word is out of its range.
    pub fn from_words(words: [u64; SP_CLOCK_WORDS]) -> Option<Clock> {
        Some(Clock {
            phys: words[SP_CLOCK_PHYS],
            logical: words[SP_CLOCK_LOGICAL].try_into().ok()?,
            node: words[SP_CLOCK_NODE].try_into().ok()?,
            skew: words[SP_CLOCK_SKEW_COUNT].try_into().ok()?,
        })
    }

    pub(crate) fn returned(words: [u64; SP_CLOCK_WORDS]) -> Clock {
        Clock::from_words(words).expect("the library keeps the words in range")
    }

    fn step(&mut self, call: impl FnOnce(&mut [u64]) -> u32) -> Result<(), Refusal> {
        let mut words = self.words();
        split(call(&mut words))?;
        *self = Clock::returned(words);
        Ok(())
    }
}
