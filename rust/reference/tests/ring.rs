//! The ring and the owner walk.

use reference::peers::{Admission, PeerTable, ALIVE, DOWN};
use reference::ring::{self, build, is_sound, owners, place, place_node, place_token, place_vnode};
use reference::Refusal;
use support::Rng;

fn table(ids: &[u8]) -> PeerTable {
    let fresh = PeerTable::fresh(ids[0], [0; 4], 0, 0, 0).unwrap();
    ids[1..]
        .iter()
        .fold(fresh, |table, &id| table.add(id, [0; 4], 0, 0, 0).unwrap())
}

/// The ring of the rules' own points.
fn sample_ring() -> [u64; 4] {
    [
        place(100, 1, 0),
        place(200, 2, 0),
        place(200, 3, 0),
        place(900, 1, 1),
    ]
}

fn found(
    ring: &[u64],
    table: &PeerTable,
    admission: Admission,
    position: u32,
    count: usize,
) -> Result<Vec<u8>, Refusal> {
    let mut out = [0xA5; 5];
    let answer = owners(ring, table, admission, position, count, &mut out);
    let touched = if answer.is_ok() { count } else { 0 };
    assert!(out[touched..].iter().all(|&b| b == 0xA5));
    answer.map(|()| out[..count].to_vec())
}

#[test]
fn token_points() {
    assert_eq!(ring::token(0, 0, 0), 0x3E5D_5CFC);
    assert_eq!(ring::token(1, 0, 0), 0xAC4B_288E);
    assert_eq!(ring::token(1, 1, 0), 0xA9C1_0420);
    assert_eq!(ring::token(255, 63, 0), 0xA0A4_ED1E);
    assert_eq!(ring::token(7, 5, 0xDEAD_BEEF), 0x604A_CE50);
}

#[test]
fn key_positions() {
    assert_eq!(ring::key_position(b"k1", 0), Ok(0xCF0F_0393));
    assert_eq!(ring::key_position(b"k1", 0xDEAD_BEEF), Ok(0xE270_3523));
    assert_eq!(ring::key_position(&[b'x'; 64], 1), Ok(0x82C3_D28D));
    for key in [&b""[..], &[b'x'; 65], b"_ring:", b"_gossip:a"] {
        assert_eq!(ring::key_position(key, 0), Err(Refusal::BadKey));
    }
}

#[test]
fn places_hold_their_parts() {
    let greatest = place(u32::MAX, 255, 63);
    assert_eq!(greatest, (1 << 48) - 256 + 63);
    assert_eq!(place_token(greatest), u32::MAX);
    assert_eq!(place_node(greatest), 255);
    assert_eq!(place_vnode(greatest), 63);
    assert_eq!(place(1, 2, 3), 65536 + 2 * 256 + 3);
}

#[test]
fn owner_points() {
    let (ring, peers) = (sample_ring(), table(&[1, 2, 3]));
    let home = |position, count| found(&ring, &peers, Admission::Home, position, count);
    assert_eq!(home(200, 2), Ok(vec![2, 3]));
    assert_eq!(home(201, 2), Ok(vec![1, 2]));
    assert_eq!(home(901, 3), Ok(vec![1, 2, 3]));
    assert_eq!(home(0, 3), Ok(vec![1, 2, 3]));
    assert_eq!(home(900, 1), Ok(vec![1]));
    assert_eq!(home(u32::MAX, 1), Ok(vec![1]));
    let down = peers.reported(3, DOWN, 0, 0).unwrap();
    let standing = |count| found(&ring, &down, Admission::Standing, 200, count);
    assert_eq!(standing(3), Err(Refusal::TooFew));
    assert_eq!(standing(2), Ok(vec![2, 1]));
    assert_eq!(
        found(&ring, &down, Admission::Home, 200, 3),
        Ok(vec![2, 3, 1])
    );
}

#[test]
fn the_order_of_walk_refusals() {
    let (ring, peers) = (sample_ring(), table(&[1, 2, 3]));
    let unsound = PeerTable { count: 0, ..peers };
    let broken = [5, 5];
    let walk = |ring: &[u64], peers: &PeerTable, count: usize, room: usize| {
        let mut out = [0; 3];
        owners(ring, peers, Admission::Home, 0, count, &mut out[..room])
    };
    assert_eq!(walk(&broken, &peers, 0, 0), Err(Refusal::BadArgument));
    assert_eq!(walk(&broken, &peers, 4, 0), Err(Refusal::BadArgument));
    assert_eq!(walk(&broken, &unsound, 3, 0), Err(Refusal::BadArgument));
    assert_eq!(walk(&broken, &peers, 3, 0), Err(Refusal::BadRing));
    assert_eq!(walk(&ring[..2], &peers, 3, 0), Err(Refusal::TooFew));
    assert_eq!(walk(&[], &peers, 1, 0), Err(Refusal::TooFew));
    assert_eq!(walk(&ring, &peers, 3, 2), Err(Refusal::NoRoom));
    assert_eq!(walk(&ring, &peers, 3, 3), Ok(()));
}

#[test]
fn nodes_without_a_row_are_not_admitted() {
    let (ring, peers) = (sample_ring(), table(&[9, 1, 2]));
    assert_eq!(
        found(&ring, &peers, Admission::Home, 0, 3),
        Err(Refusal::TooFew)
    );
    assert_eq!(found(&ring, &peers, Admission::Home, 0, 2), Ok(vec![1, 2]));
}

#[test]
fn building() {
    let mut out = [7; 12];
    assert_eq!(build(&[3, 1], 5, 99, &mut out), Ok(10));
    assert_eq!(out[10..], [7, 7]);
    assert!(is_sound(&out[..10]));
    for &p in &out[..10] {
        assert_eq!(
            place_token(p),
            ring::token(place_node(p), place_vnode(p), 99)
        );
    }
    let mut turned = [0; 10];
    assert_eq!(build(&[1, 3], 5, 99, &mut turned), Ok(10));
    assert_eq!(turned, out[..10]);
    assert_eq!(build(&[], 1, 0, &mut []), Ok(0));
}

#[test]
fn building_refusals() {
    let ten: Vec<u8> = (0..10).collect();
    let eleven: Vec<u8> = (0..11).collect();
    let mut out = [7; 640];
    for (ids, vnodes) in [
        (&ten[..], 0),
        (&ten, 65),
        (&[], 0),
        (&[], 65),
        (&eleven, 1),
        (&[4, 5, 4], 1),
    ] {
        assert_eq!(build(ids, vnodes, 0, &mut out), Err(Refusal::BadArgument));
        assert_eq!(build(ids, vnodes, 0, &mut []), Err(Refusal::BadArgument));
    }
    assert_eq!(build(&ten, 64, 0, &mut out[..639]), Err(Refusal::NoRoom));
    assert_eq!(out, [7; 640]);
    assert_eq!(build(&ten, 64, 0, &mut out), Ok(640));
    assert!(is_sound(&out));
}

#[test]
fn soundness() {
    let greatest = place(u32::MAX, 255, 63);
    assert!(is_sound(&[]));
    assert!(is_sound(&[0, 1, greatest]));
    assert!(!is_sound(&[1, 1]));
    assert!(!is_sound(&[2, 1]));
    assert!(!is_sound(&[64]));
    assert!(!is_sound(&[greatest + 1]));
    assert!(!is_sound(&[1 << 48]));
    assert!(!is_sound(&[u64::MAX]));
    let long: Vec<u64> = (0..641).map(|i| i * 256).collect();
    assert!(is_sound(&long[..640]));
    assert!(!is_sound(&long));
}

/// Each admitted node's nearest place, the nearest nodes first. A place
/// before the position comes after every other.
fn owners_by_sorting(
    ring: &[u64],
    table: &PeerTable,
    admission: Admission,
    position: u32,
    count: usize,
) -> Result<Vec<u8>, Refusal> {
    let distance = |p: u64| (place_token(p) < position, p);
    let mut nearest = Vec::new();
    for row in &table.rows[..table.count] {
        let places = ring.iter().copied().filter(|&p| place_node(p) == row.id);
        if admission == Admission::Home || row.state != DOWN {
            nearest.extend(places.map(distance).min().map(|d| (d, row.id)));
        }
    }
    nearest.sort_unstable();
    if nearest.len() < count {
        return Err(Refusal::TooFew);
    }
    Ok(nearest[..count].iter().map(|&(_, id)| id).collect())
}

/// A sound ring with many equal tokens.
fn crowded_ring(rng: &mut Rng) -> Vec<u64> {
    let length = rng.index(20);
    let mut ring: Vec<u64> = (0..length)
        .map(|_| {
            place(
                rng.below(8) as u32 * 100,
                rng.below(7) as u8,
                rng.below(64) as u8,
            )
        })
        .collect();
    ring.sort_unstable();
    ring.dedup();
    ring
}

fn random_peers(rng: &mut Rng) -> PeerTable {
    let mut ids: Vec<u8> = (0..8).collect();
    for i in (1..ids.len()).rev() {
        ids.swap(i, rng.index(i + 1));
    }
    let mut peers = table(&ids[..1 + rng.index(8)]);
    for row in &mut peers.rows[1..peers.count] {
        row.state = rng.below(3) as u8;
    }
    assert_eq!(peers.rows[0].state, ALIVE);
    peers
}

#[test]
fn random_walks_over_crowded_rings() {
    let mut rng = Rng::new(8);
    for _ in 0..50_000 {
        let (ring, peers) = (crowded_ring(&mut rng), random_peers(&mut rng));
        let position = rng.below(9) as u32 * 100 + rng.below(3) as u32;
        let count = 1 + rng.index(3);
        for admission in [Admission::Home, Admission::Standing] {
            assert_eq!(
                found(&ring, &peers, admission, position, count),
                owners_by_sorting(&ring, &peers, admission, position, count)
            );
        }
    }
}

#[test]
fn random_walks_over_built_rings() {
    let mut rng = Rng::new(9);
    let mut out = [0; 640];
    for _ in 0..2_000 {
        let peers = random_peers(&mut rng);
        let ids: Vec<u8> = (0..rng.below(9) as u8).collect();
        let length = build(&ids, 1 + rng.index(64), rng.word() as u32, &mut out).unwrap();
        let ring = &out[..length];
        assert!(is_sound(ring));
        let (position, count) = (rng.word() as u32, 1 + rng.index(3));
        for admission in [Admission::Home, Admission::Standing] {
            assert_eq!(
                found(ring, &peers, admission, position, count),
                owners_by_sorting(ring, &peers, admission, position, count)
            );
        }
    }
}
