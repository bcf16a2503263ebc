//! The hybrid clock.

use crate::refusal::Refusal;
use crate::stamp::{check_time, Stamp};

/// How far ahead of `now` a received time may be without counting as skew.
pub const AHEAD_MAX: u64 = 2000;

#[derive(Clone, Copy, Debug, PartialEq, Eq)]
pub struct Clock {
    pub phys: u64,
    pub logical: u16,
    pub node: u8,
    /// Far-ahead receives so far; stays at the greatest number once there.
    pub skew: u32,
}

impl Clock {
    pub fn fresh(node: u8) -> Clock {
        Clock {
            phys: 0,
            logical: 0,
            node,
            skew: 0,
        }
    }

    /// The stamp the clock stands at.
    pub fn stamp(self) -> Stamp {
        Stamp {
            phys: self.phys,
            logical: self.logical,
            node: self.node,
        }
    }

    /// The clock after a local event at `now`; its stamp is the event's.
    pub fn send(self, now: u64) -> Result<Clock, Refusal> {
        check_time(now)?;
        check_time(self.phys)?;
        if now > self.phys {
            Ok(self.at(now, 0))
        } else {
            Ok(self.at(self.phys, raised(self.logical)?))
        }
    }

    /// The clock after the stamp (phys, logical) has come in at `now`.
    pub fn receive(self, phys: u64, logical: u16, now: u64) -> Result<Clock, Refusal> {
        check_time(now)?;
        check_time(self.phys)?;
        check_time(phys)?;
        if phys > now + AHEAD_MAX {
            let mut next = self.at(self.phys.max(now), raised(self.logical)?);
            next.skew = self.skew.saturating_add(1);
            Ok(next)
        } else if phys > self.phys {
            Ok(self.at(phys, raised(logical)?))
        } else if phys == self.phys {
            Ok(self.at(self.phys, raised(self.logical.max(logical))?))
        } else {
            Ok(self.at(self.phys, raised(self.logical)?))
        }
    }

    fn at(self, phys: u64, logical: u16) -> Clock {
        Clock {
            phys,
            logical,
            ..self
        }
    }
}

fn raised(logical: u16) -> Result<u16, Refusal> {
    logical.checked_add(1).ok_or(Refusal::ClockSpent)
}
