//! A module: a store and a clock that answer requests.

use snowpulley::frame::{self, FRAME_MAX};
use snowpulley::handler::handle;
use snowpulley::{store, Clock, Message, Refusal};

#[derive(Clone)]
pub struct Module {
    pub store: Vec<u8>,
    pub clock: Clock,
    reply: [u8; FRAME_MAX],
}

impl Module {
    /// A fresh store and a fresh clock.
    pub fn fresh(node: u8, slots: usize) -> Result<Module, Refusal> {
        Ok(Module {
            store: store::fresh(slots)?,
            clock: Clock::fresh(node),
            reply: [0; FRAME_MAX],
        })
    }

    /// The reply frame to a request frame.
    pub fn answer(&mut self, now: u64, request: &[u8]) -> &[u8] {
        let Module {
            store,
            clock,
            reply,
        } = self;
        let answer = handle(store, clock, now, request, reply);
        &reply[..answer.length]
    }

    /// The same for messages.
    pub fn ask(&mut self, now: u64, request: &Message<'_>) -> Result<Message<'_>, Refusal> {
        let request = request.frame()?;
        frame::read(self.answer(now, &request))
    }
}
