//! The modules of a site as one of them sees it: their ring, who is down, and
//! the owners of a key.

use crate::args::Args;
use crate::cli::{failure, Failure};
use crate::text::bytes::{shown, SHORT};
use snowpulley::peers::ROWS_MAX;
use snowpulley::ring::{self, Admission, Place};
use snowpulley::{PeerTable, Refusal, State};

/// What the options of a cluster are, for the help of a command.
pub const OPTIONS: &str = "  --ids 1,2,3,4  the modules, up to ten ids from 0 to 255
  --vnodes N     the places of each on the ring, 1 to 64 (8 if not given)
  --salt N       the cluster's salt, as 0xA5A5A5A5 (0 if not given)
  --down 2,3     the modules that are DOWN (none if not given)
  --count N      how many owners are asked for, 1 to 3 (3 if not given)
";

/// The owners of a key in the order of the walk; none for TOO_FEW.
pub type Owners = Option<Vec<u8>>;

/// A key's position and owners.
pub struct Walk {
    pub key: Vec<u8>,
    pub position: u32,
    pub home: Owners,
    pub standing: Owners,
}

impl Walk {
    pub fn is_full(&self) -> bool {
        self.home.is_some() && self.standing.is_some()
    }
}

/// What the ring and the owners depend on, besides the key.
pub struct Site {
    pub ids: Vec<u8>,
    pub down: Vec<u8>,
    pub vnodes: u32,
    pub salt: u32,
    /// How many owners are asked for.
    pub count: u32,
}

impl Site {
    /// By the options of a command.
    pub fn from_args(args: &mut Args) -> Result<Site, Failure> {
        let missing = || failure("--ids is missing, as --ids 1,2,3,4");
        Ok(Site {
            ids: args.ids("--ids")?.ok_or_else(missing)?,
            down: args.ids("--down")?.unwrap_or_default(),
            vnodes: args.number("--vnodes", 1..=ring::VNODES_MAX, 8)?,
            salt: args.number("--salt", 0..=u32::MAX, 0)?,
            count: args.number("--count", 1..=ring::OWNERS_MAX, 3)?,
        })
    }

    /// What the library would refuse as `BAD_ARGUMENT`, said more exactly.
    fn check(&self) -> Result<(), Failure> {
        let ids = &self.ids;
        if ids.len() > ROWS_MAX {
            return Err(failure("--ids: more than ten modules"));
        }
        let twice = (1..ids.len()).find(|&at| ids[..at].contains(&ids[at]));
        if let Some(at) = twice {
            return Err(failure(format!("--ids: {} is listed twice", ids[at])));
        }
        match self.down.iter().find(|id| !ids.contains(id)) {
            Some(id) => Err(failure(format!("--down: {id} is not among the ids"))),
            None => Ok(()),
        }
    }

    /// The peer table of the first module that is up: a module's own row is
    /// first in its table, and is never DOWN.
    fn table(&self) -> Result<PeerTable, Failure> {
        let none = || failure("--down: no module is up, and a DOWN one asks nothing");
        let up = self.ids.iter().find(|&&id| !self.is_down(id));
        let own = *up.ok_or_else(none)?;
        let mut table = PeerTable::fresh(own, [0; 4], 0, 0, 0)?;
        for &id in self.ids.iter().filter(|&&id| id != own) {
            table.add(id, [0; 4], 0, 0, 0)?;
        }
        for &id in &self.down {
            table.reported(id, State::Down, 0, 0)?;
        }
        Ok(table)
    }

    pub fn is_down(&self, id: u8) -> bool {
        self.down.contains(&id)
    }

    /// A module's state in a word.
    pub fn state(&self, id: u8) -> &'static str {
        if self.is_down(id) {
            "DOWN"
        } else {
            "up"
        }
    }
}

pub struct Cluster {
    pub site: Site,
    ring: Vec<u64>,
    table: PeerTable,
}

impl Cluster {
    pub fn of(site: Site) -> Result<Cluster, Failure> {
        site.check()?;
        Ok(Cluster {
            ring: ring::built(&site.ids, site.vnodes, site.salt)?,
            table: site.table()?,
            site,
        })
    }

    pub fn places(&self) -> impl Iterator<Item = Place> + use<'_> {
        self.ring.iter().copied().map(Place::of)
    }

    /// The position and the owners of a key.
    pub fn walk(&self, key: &[u8]) -> Result<Walk, Failure> {
        let refused = |refusal: Refusal| {
            let key = shown(key, SHORT);
            failure(format!("key {key}: refused with {refusal}"))
        };
        let position = ring::key_position(key, self.site.salt).map_err(refused)?;
        Ok(Walk {
            position,
            home: self.owners(position, Admission::Home)?,
            standing: self.owners(position, Admission::Standing)?,
            key: key.to_vec(),
        })
    }

    fn owners(&self, position: u32, admission: Admission) -> Result<Owners, Failure> {
        let (ring, table, count) = (&self.ring, &self.table, self.site.count);
        let mut out = vec![0; count as usize];
        match ring::owners(ring, table, position, admission, count, &mut out) {
            Ok(()) => Ok(Some(out)),
            Err(Refusal::TooFew) => Ok(None),
            Err(refusal) => Err(refusal.into()),
        }
    }

    /// The place at which the walk from a position first meets a module.
    pub fn first_place(&self, position: u32, node: u8) -> Option<Place> {
        let own = || self.places().filter(|place| place.node == node);
        let ahead = own().find(|place| place.token >= position);
        ahead.or_else(|| own().next())
    }

    /// The part of all positions that have this module as first HOME owner.
    fn share(&self, node: u8) -> f64 {
        let places: Vec<Place> = self.places().collect();
        let before = places.last().into_iter().chain(&places);
        let parts = before.zip(&places).filter(|(_, place)| place.node == node);
        // From the place before, which is left out, to this one.
        let lengths = parts.map(|(before, place)| match places.len() {
            1 => 1.0,
            _ => part(place.token.wrapping_sub(before.token)),
        });
        lengths.sum()
    }

    /// The same in per cent.
    pub fn percent(&self, node: u8) -> String {
        format!("{:.1} %", 100.0 * self.share(node))
    }

    /// One line that says what the owners depend on.
    pub fn title(&self) -> String {
        let site = &self.site;
        let down = match site.down.as_slice() {
            [] => "none".to_string(),
            down => listed(down),
        };
        format!(
            "modules: {}; DOWN: {down}; vnodes of each: {}; salt: {:#010x}; places: {}",
            listed(&site.ids),
            site.vnodes,
            site.salt,
            self.ring.len()
        )
    }
}

/// The part of the whole ring that so many positions are.
pub fn part(positions: u32) -> f64 {
    f64::from(positions) / 4_294_967_296.0
}

/// Ids with commas between them.
pub fn listed(ids: &[u8]) -> String {
    let ids: Vec<String> = ids.iter().map(u8::to_string).collect();
    ids.join(", ")
}

pub fn owners_shown(owners: &Owners) -> String {
    owners.as_deref().map_or("TOO_FEW".to_string(), listed)
}

#[cfg(test)]
mod tests {
    use super::*;

    fn site(ids: &[u8], down: &[u8]) -> Site {
        Site {
            ids: ids.to_vec(),
            down: down.to_vec(),
            vnodes: 8,
            salt: 7,
            count: 3,
        }
    }

    fn cluster(ids: &[u8], down: &[u8]) -> Cluster {
        Cluster::of(site(ids, down)).unwrap()
    }

    #[test]
    fn shares_are_the_whole() {
        for ids in [&[1, 2, 3, 4][..], &[9]] {
            let cluster = cluster(ids, &[]);
            let total: f64 = ids.iter().map(|&id| cluster.share(id)).sum();
            assert!((total - 1.0).abs() < 1e-9, "{ids:?}: {total}");
        }
    }

    /// The first places are met in the order of the owners.
    #[test]
    fn first_places_follow_the_walk() {
        let cluster = cluster(&[1, 2, 3, 4, 5], &[2]);
        for number in 0..200 {
            let walk = cluster.walk(format!("k{number}").as_bytes()).unwrap();
            for owners in [walk.home.unwrap(), walk.standing.unwrap()] {
                let places = owners
                    .iter()
                    .map(|&id| cluster.first_place(walk.position, id));
                let way = places.map(|place| place.unwrap().token.wrapping_sub(walk.position));
                let way: Vec<u32> = way.collect();
                assert!(way.is_sorted(), "{owners:?} at {way:?}");
            }
        }
    }

    #[test]
    fn the_first_module_that_is_up_asks() {
        assert_eq!(cluster(&[1, 2, 3], &[1, 2]).table.rows[0].id, 3);
        assert!(Cluster::of(site(&[1, 2], &[1, 2])).is_err());
    }
}
