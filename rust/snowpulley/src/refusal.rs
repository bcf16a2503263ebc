//! The refusals: one table of names, numbers and meanings, and taking a
//! result apart.

use snowpulley_sys as header;
use std::error::Error;
use std::fmt;

/// The enum, its numbers and its texts from one table.
macro_rules! refusals {
    ($($case:ident = $number:ident: $given:literal;)+) => {
        /// Why a call was refused. The value of each case is its number.
        #[derive(Clone, Copy, Debug, PartialEq, Eq, PartialOrd, Ord)]
        #[repr(u16)]
        pub enum Refusal {
            $($case = header::$number,)+
        }

        impl Refusal {
            /// Every refusal, in the order of the numbers.
            pub const ALL: &'static [Refusal] = &[$(Refusal::$case,)+];

            /// The header's name, as `SP_BAD_KEY`.
            pub const fn constant(self) -> &'static str {
                match self {
                    $(Refusal::$case => stringify!($number),)+
                }
            }

            /// When the refusal is given.
            pub const fn given(self) -> &'static str {
                match self {
                    $(Refusal::$case => $given,)+
                }
            }
        }
    };
}

refusals! {
    BadKey = SP_BAD_KEY:
        "a key of 0 or more than 64 bytes, or one that begins with _sys:, _ring:, _hint: or \
         _gossip:";
    ValueTooLarge = SP_VALUE_TOO_LARGE:
        "a value of more than 512 bytes";
    BadFrame = SP_BAD_FRAME:
        "bytes that are not exactly one frame by the frame rules, or a reply given as a request";
    NoRoom = SP_NO_ROOM:
        "an output that is too short, or a buffer for a new store that is not its exact length";
    BadStore = SP_BAD_STORE:
        "a store buffer that is not sound";
    StoreFull = SP_STORE_FULL:
        "a call after which more keys would be held than there are slots";
    Overtaken = SP_OVERTAKEN:
        "a local PUT or DEL whose stamp is not greater than the held one of its key";
    ClockSpent = SP_CLOCK_SPENT:
        "a logical count that is to be raised and is already 65535";
    BadTime = SP_BAD_TIME:
        "a time, given or in a clock or stamp, that is not below 2^48";
    TooFew = SP_TOO_FEW:
        "an owner walk that meets fewer admitted modules than owners are asked for";
    UnknownPeer = SP_UNKNOWN_PEER:
        "an event about an id that has no row in the peer table";
    Stale = SP_STALE:
        "an event whose incarnation is below the held one";
    TableFull = SP_TABLE_FULL:
        "an eleventh row for the peer table";
    PeerKnown = SP_PEER_KNOWN:
        "an id to be added that already has a row";
    SelfPeer = SP_SELF:
        "an event, other than adding, about the own id";
    BadRing = SP_BAD_RING:
        "a ring that is not sound";
    BadArgument = SP_BAD_ARGUMENT:
        "a count, flag, state or ERR number out of range, an id listed twice, a tombstone with a \
         value, words that are no clock or no sound peer table, or a list of deliveries that is \
         not readable";
    LowerLine = SP_LOWER_LINE:
        "a purge to a line below the one that the store holds";
    BelowLine = SP_BELOW_LINE:
        "an entry whose time is below the store's purge line, for a key that is not held";
    UnequalLines = SP_UNEQUAL_LINES:
        "a merge of stores with different purge lines";
}

impl Refusal {
    pub const fn number(self) -> u16 {
        self as u16
    }

    pub fn from_number(number: u16) -> Option<Refusal> {
        let mut all = Refusal::ALL.iter().copied();
        all.find(|refusal| refusal.number() == number)
    }

    /// The name in the rules, as `BAD_KEY`.
    pub fn name(self) -> &'static str {
        self.constant().trim_start_matches("SP_")
    }
}

impl fmt::Display for Refusal {
    fn fmt(&self, f: &mut fmt::Formatter<'_>) -> fmt::Result {
        write!(f, "{} {}: {}", self.number(), self.name(), self.given())
    }
}

impl Error for Refusal {}

/// The refusal in the upper half of a result, if there is one.
pub(crate) fn refusal_of(result: u32) -> Option<Refusal> {
    match (result >> 16) as u16 {
        0 => None,
        number => Some(Refusal::from_number(number).expect("a refusal of the header")),
    }
}

/// The answer in the lower half of a result.
pub(crate) fn answer_of(result: u32) -> u16 {
    result as u16
}

pub(crate) fn split(result: u32) -> Result<u16, Refusal> {
    match refusal_of(result) {
        None => Ok(answer_of(result)),
        Some(refusal) => Err(refusal),
    }
}
