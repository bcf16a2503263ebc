//! The proved library and the reference on the same random cases.
//!
//! A family is one subject: from a seed it makes cases, gives each to both
//! sides and compares the results and every element of every buffer.

pub mod expected;
pub mod families;
pub mod make;
pub mod run;

use run::Tally;

/// One subject's cases.
#[derive(Debug)]
pub struct Family {
    pub name: &'static str,
    /// Runs so many cases from a seed; what was compared. Panics at the first
    /// difference.
    pub run: fn(seed: u64, count: u64) -> Tally,
    /// How many cases make one turn; a family's turn takes some 10 to 50 ms.
    pub share: u64,
}

pub const FAMILIES: [Family; 8] = [
    Family {
        name: "checksums",
        run: families::checksums::run,
        share: 1000,
    },
    Family {
        name: "frames",
        run: families::frames::run,
        share: 400,
    },
    Family {
        name: "clock",
        run: families::clock::run,
        share: 8000,
    },
    Family {
        name: "peers",
        run: families::peers::run,
        share: 2000,
    },
    Family {
        name: "ring",
        run: families::ring::run,
        share: 50,
    },
    Family {
        name: "store",
        run: families::store::run,
        share: 40,
    },
    Family {
        name: "handler",
        run: families::handler::run,
        share: 40,
    },
    Family {
        name: "explain",
        run: families::explain::run,
        share: 200,
    },
];
