//! The request handler.

use crate::clock::Clock;
use crate::raw;
use crate::refusal::{answer_of, refusal_of, Refusal};

/// The outcome of one request.
#[derive(Clone, Copy, Debug, PartialEq, Eq)]
pub struct Answer {
    /// How many bytes of the reply buffer hold the reply.
    pub length: usize,
    /// With a refusal the reply is an ERR frame, except that too short a
    /// reply buffer gets nothing.
    pub refusal: Option<Refusal>,
}

/// Answers one request frame. A PUT or DEL whose stamp is not above the held
/// one is refused with `Overtaken`, whatever it writes; a REPL is offered as by
/// `store::offer`. All three are refused with `BelowLine` as an offer is.
pub fn handle(
    store: &mut [u8],
    clock: &mut Clock,
    now: u64,
    frame: &[u8],
    reply: &mut [u8],
) -> Answer {
    let mut words = clock.words();
    let result = raw::handle(store, &mut words, now, frame, reply);
    *clock = Clock::returned(words);
    Answer {
        length: answer_of(result).into(),
        refusal: refusal_of(result),
    }
}
