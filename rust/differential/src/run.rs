//! Running cases and comparing the two sides.

use reference::Refusal;
use std::collections::BTreeMap;
use std::fmt::Debug;
use support::Rng;

/// What is lent to a call, all of it compared afterwards.
pub trait Lent: Clone {
    /// Where this side and the other differ first, if they do.
    fn difference(&self, other: &Self) -> Option<String>;
}

impl Lent for () {
    fn difference(&self, (): &()) -> Option<String> {
        None
    }
}

impl<T: Copy + PartialEq + Debug> Lent for Vec<T> {
    fn difference(&self, other: &Vec<T>) -> Option<String> {
        let at = self.iter().zip(other).position(|(a, b)| a != b)?;
        Some(format!(
            "element {at} of {}: {:?} and {:?}",
            self.len(),
            self[at],
            other[at]
        ))
    }
}

impl<A: Lent, B: Lent> Lent for (A, B) {
    fn difference(&self, other: &(A, B)) -> Option<String> {
        let first = self.0.difference(&other.0).map(|d| format!("first, {d}"));
        first.or_else(|| self.1.difference(&other.1).map(|d| format!("second, {d}")))
    }
}

impl<A: Lent, B: Lent, C: Lent> Lent for (A, B, C) {
    fn difference(&self, other: &(A, B, C)) -> Option<String> {
        let first = self.0.difference(&other.0).map(|d| format!("first, {d}"));
        first
            .or_else(|| self.1.difference(&other.1).map(|d| format!("second, {d}")))
            .or_else(|| self.2.difference(&other.2).map(|d| format!("third, {d}")))
    }
}

/// What a run has compared.
#[derive(Debug, Default)]
pub struct Tally {
    /// The number of calls.
    pub compared: u64,
    /// How often each call was refused, by the refusal, and how often it gave
    /// 0, 1 or 2, by the result; and what else a family counts.
    pub met: BTreeMap<(&'static str, u32), u64>,
}

fn is_refusal(number: u32) -> bool {
    u8::try_from(number).is_ok_and(|n| Refusal::from_number(n).is_some())
}

impl Tally {
    fn add(&mut self, call: &'static str, result: u32) {
        self.compared += 1;
        // Other results are counts, or no results with two halves.
        match (result >> 16, result & 0xFFFF) {
            (0, 0..=2) => self.count(call, result),
            (refusal, _) if is_refusal(refusal) => self.count(call, refusal << 16),
            _ => (),
        }
    }

    fn count(&mut self, what: &'static str, number: u32) {
        *self.met.entry((what, number)).or_default() += 1;
    }

    pub fn times(&self, call: &'static str, result: u32) -> u64 {
        self.met.get(&(call, result)).copied().unwrap_or(0)
    }
}

/// A run through a family's cases.
#[derive(Debug)]
pub struct Run {
    family: &'static str,
    seed: u64,
    case: u64,
    tally: Tally,
}

impl Run {
    /// Makes the call on both sides, each on its own copy of what is lent.
    /// Panics where they differ; else `lent` is as the call left it.
    pub fn same<B: Lent>(
        &mut self,
        call: &'static str,
        lent: &mut B,
        proved: impl FnOnce(&mut B) -> u32,
        reference: impl FnOnce(&mut B) -> u32,
    ) -> u32 {
        let mut copy = lent.clone();
        let got = proved(&mut copy);
        let want = reference(lent);
        let buffers = copy.difference(lent);
        if got != want || buffers.is_some() {
            self.stop(call, got, want, buffers);
        }
        self.tally.add(call, want);
        want
    }

    /// Counts something else than a result that a case has met.
    pub fn count(&mut self, what: &'static str, number: u32) {
        self.tally.count(what, number);
    }

    /// Panics where something does not hold of what a case has met.
    pub fn holds(&self, what: &str, is: bool) {
        let (family, seed, case) = (self.family, self.seed, self.case);
        assert!(is, "family {family}, seed {seed}, case {case}: {what}");
    }

    fn stop(&self, call: &str, got: u32, want: u32, buffers: Option<String>) -> ! {
        panic!(
            "family {}, seed {}, case {}, call {call}:\n\
             proved    {}\n\
             reference {}\n\
             buffers   {}",
            self.family,
            self.seed,
            self.case,
            shown(got),
            shown(want),
            buffers.unwrap_or("equal".to_string()),
        )
    }
}

fn shown(result: u32) -> String {
    let (refusal, answer) = (result >> 16, result & 0xFFFF);
    format!("{result:#010x} (as a result: refusal {refusal}, answer {answer})")
}

/// Runs so many cases. A case's numbers come from the seed and its own
/// number, so it does not depend on earlier cases.
pub fn cases(
    family: &'static str,
    seed: u64,
    count: u64,
    case: impl Fn(&mut Run, &mut Rng),
) -> Tally {
    let mut run = Run {
        family,
        seed,
        case: 0,
        tally: Tally::default(),
    };
    for number in 0..count {
        run.case = number;
        let start = Rng::new(seed).word() ^ Rng::new(!number).word();
        case(&mut run, &mut Rng::new(start));
    }
    run.tally
}

/// `same!(run, CALL, LENT, |b| (ARGUMENTS))` makes the same call, with the
/// same arguments, by `snowpulley::raw` and by `expected`.
#[macro_export]
macro_rules! same {
    ($run:expr, $call:ident, $lent:expr, |$b:ident| ($($argument:expr),*)) => {
        $run.same(
            stringify!($call),
            $lent,
            |$b| snowpulley::raw::$call($($argument),*),
            |$b| $crate::expected::$call($($argument),*),
        )
    };
}
