//! The peer table.

use crate::refusal::Refusal;
use crate::stamp::{check_time, TIME_END};
use std::cmp::Ordering;

pub const ROWS_MAX: usize = 10;

/// The states; a greater number is a worse state.
pub const ALIVE: u8 = 0;
pub const SUSPECT: u8 = 1;
pub const DOWN: u8 = 2;

/// Ages, in milliseconds, at which a tick changes a state.
pub const SUSPECT_AGE: u64 = 5_000;
pub const DOWN_AGE: u64 = 15_000;

#[derive(Clone, Copy, Debug, PartialEq, Eq)]
pub struct Row {
    pub id: u8,
    pub address: [u8; 4],
    pub port: u16,
    pub state: u8,
    pub incarnation: u32,
    pub seen: u64,
}

impl Row {
    pub const EMPTY: Row = Row {
        id: 0,
        address: [0; 4],
        port: 0,
        state: ALIVE,
        incarnation: 0,
        seen: 0,
    };
}

/// Which peers an owner walk may take.
#[derive(Clone, Copy, Debug, PartialEq, Eq)]
pub enum Admission {
    /// Every peer with a row.
    Home,
    /// Every peer with a row that is not DOWN.
    Standing,
}

/// The first `count` rows are the table. A table may come from anywhere, so
/// nothing keeps `count` or the rows in range.
#[derive(Clone, Copy, Debug, PartialEq, Eq)]
pub struct PeerTable {
    pub rows: [Row; ROWS_MAX],
    pub count: usize,
}

impl PeerTable {
    /// A table with the own row alone.
    pub fn fresh(
        id: u8,
        address: [u8; 4],
        port: u16,
        incarnation: u32,
        now: u64,
    ) -> Result<PeerTable, Refusal> {
        check_time(now)?;
        let mut rows = [Row::EMPTY; ROWS_MAX];
        rows[0] = Row {
            id,
            address,
            port,
            state: ALIVE,
            incarnation,
            seen: now,
        };
        Ok(PeerTable { rows, count: 1 })
    }

    pub fn is_sound(&self) -> bool {
        if self.count < 1 || self.count > ROWS_MAX {
            return false;
        }
        let rows = &self.rows[..self.count];
        rows[0].state == ALIVE
            && rows.iter().all(|r| r.state <= DOWN && r.seen < TIME_END)
            && (1..rows.len()).all(|i| rows[..i].iter().all(|r| r.id != rows[i].id))
    }

    /// Whether the owner walk may take this id.
    pub fn admits(&self, admission: Admission, id: u8) -> bool {
        match (self.find(id), admission) {
            (None, _) => false,
            (Some(_), Admission::Home) => true,
            (Some(at), Admission::Standing) => self.rows[at].state != DOWN,
        }
    }

    pub fn add(
        self,
        id: u8,
        address: [u8; 4],
        port: u16,
        incarnation: u32,
        now: u64,
    ) -> Result<PeerTable, Refusal> {
        self.check(now)?;
        if self.find(id).is_some() {
            return Err(Refusal::PeerKnown);
        }
        if self.count == ROWS_MAX {
            return Err(Refusal::TableFull);
        }
        let mut next = self;
        next.rows[self.count] = Row {
            id,
            address,
            port,
            state: ALIVE,
            incarnation,
            seen: now,
        };
        next.count += 1;
        Ok(next)
    }

    /// The peer itself was heard.
    pub fn heard(self, id: u8, incarnation: u32, now: u64) -> Result<PeerTable, Refusal> {
        self.check(now)?;
        let at = self.find_other(id)?;
        let mut next = self;
        let row = &mut next.rows[at];
        if incarnation < row.incarnation {
            return Err(Refusal::Stale);
        }
        row.state = ALIVE;
        row.incarnation = incarnation;
        row.seen = row.seen.max(now);
        Ok(next)
    }

    /// Another peer told the state of this one.
    pub fn reported(
        self,
        id: u8,
        state: u8,
        incarnation: u32,
        now: u64,
    ) -> Result<PeerTable, Refusal> {
        self.check(now)?;
        if state > DOWN {
            return Err(Refusal::BadArgument);
        }
        let at = self.find_other(id)?;
        let mut next = self;
        let row = &mut next.rows[at];
        match incarnation.cmp(&row.incarnation) {
            Ordering::Less => return Err(Refusal::Stale),
            Ordering::Equal => row.state = row.state.max(state),
            Ordering::Greater => {
                row.incarnation = incarnation;
                row.state = state;
                if state == ALIVE {
                    row.seen = row.seen.max(now);
                }
            }
        }
        Ok(next)
    }

    /// Time has passed.
    pub fn tick(self, now: u64) -> Result<PeerTable, Refusal> {
        self.check(now)?;
        let mut next = self;
        for row in &mut next.rows[1..self.count] {
            let age = now.saturating_sub(row.seen);
            if age >= DOWN_AGE {
                row.state = DOWN;
            } else if age >= SUSPECT_AGE && row.state == ALIVE {
                row.state = SUSPECT;
            }
        }
        Ok(next)
    }

    /// The checks every event begins with.
    fn check(&self, now: u64) -> Result<(), Refusal> {
        check_time(now)?;
        if self.is_sound() {
            Ok(())
        } else {
            Err(Refusal::BadArgument)
        }
    }

    fn find(&self, id: u8) -> Option<usize> {
        let mut rows = self.rows.iter().take(self.count);
        rows.position(|row| row.id == id)
    }

    /// The place of a row that is not the own one.
    fn find_other(&self, id: u8) -> Result<usize, Refusal> {
        match self.find(id) {
            Some(0) => Err(Refusal::SelfPeer),
            Some(at) => Ok(at),
            None => Err(Refusal::UnknownPeer),
        }
    }
}
