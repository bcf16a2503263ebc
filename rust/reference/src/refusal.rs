//! The numbered refusals.

/// The enum and the list of its cases, from one table.
macro_rules! refusals {
    ($($case:ident = $number:literal,)+) => {
        /// Why a call was refused. The value of each case is its number.
        #[derive(Clone, Copy, Debug, PartialEq, Eq, PartialOrd, Ord)]
        #[repr(u8)]
        pub enum Refusal {
            $($case = $number,)+
        }

        impl Refusal {
            /// Every refusal, in the order of the numbers.
            pub const ALL: &'static [Refusal] = &[$(Refusal::$case,)+];
        }
    };
}

refusals! {
    BadKey = 1,
    ValueTooLarge = 2,
    BadFrame = 3,
    NoRoom = 4,
    BadStore = 5,
    StoreFull = 6,
    Overtaken = 7,
    ClockSpent = 8,
    BadTime = 9,
    TooFew = 10,
    UnknownPeer = 11,
    Stale = 12,
    TableFull = 13,
    PeerKnown = 14,
    SelfPeer = 15,
    BadRing = 16,
    BadArgument = 17,
    LowerLine = 33,
    BelowLine = 34,
    UnequalLines = 35,
}

impl Refusal {
    pub fn number(self) -> u8 {
        self as u8
    }

    pub fn from_number(number: u8) -> Option<Refusal> {
        Refusal::ALL.iter().copied().find(|r| r.number() == number)
    }
}
