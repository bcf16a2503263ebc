//! The peer table.

use reference::peers::{Admission, PeerTable, Row, ALIVE, DOWN, ROWS_MAX, SUSPECT};
use reference::Refusal;
use support::Rng;

const LAST: u64 = (1 << 48) - 1;

fn fresh() -> PeerTable {
    PeerTable::fresh(1, [10, 0, 0, 1], 7000, 4, 100).unwrap()
}

/// Own row 1 and another row 2, last seen at 0 with incarnation 5.
fn pair() -> PeerTable {
    fresh().add(2, [10, 0, 0, 2], 7002, 5, 0).unwrap()
}

fn full() -> PeerTable {
    (2..=10).fold(fresh(), |table, id| {
        table.add(id, [10, 0, 0, id], 7000, 0, 100).unwrap()
    })
}

#[test]
fn a_fresh_table_has_the_own_row() {
    let table = fresh();
    let own = Row {
        id: 1,
        address: [10, 0, 0, 1],
        port: 7000,
        state: ALIVE,
        incarnation: 4,
        seen: 100,
    };
    assert_eq!((table.count, table.rows[0]), (1, own));
    assert!(table.is_sound());
    let at = |now| PeerTable::fresh(1, [0; 4], 0, 0, now);
    assert!(at(LAST).is_ok());
    assert_eq!(at(LAST + 1), Err(Refusal::BadTime));
}

#[test]
fn adding() {
    let table = pair();
    let row = Row {
        id: 2,
        address: [10, 0, 0, 2],
        port: 7002,
        state: ALIVE,
        incarnation: 5,
        seen: 0,
    };
    assert_eq!((table.count, table.rows[1]), (2, row));
    let add = |table: PeerTable, id, now| table.add(id, [0; 4], 0, 0, now);
    assert_eq!(add(table, 2, 0), Err(Refusal::PeerKnown));
    assert_eq!(add(table, 1, 0), Err(Refusal::PeerKnown));
    assert_eq!(full().count, 10);
    assert_eq!(add(full(), 11, 0), Err(Refusal::TableFull));
    assert_eq!(add(full(), 10, 0), Err(Refusal::PeerKnown));
    let unsound = PeerTable { count: 0, ..table };
    assert_eq!(add(unsound, 2, LAST + 1), Err(Refusal::BadTime));
    assert_eq!(add(unsound, 2, 0), Err(Refusal::BadArgument));
}

#[test]
fn hearing() {
    let down = pair().reported(2, DOWN, 5, 50).unwrap();
    let back = down.heard(2, 5, 60).unwrap();
    assert_eq!(back.rows[1].state, ALIVE);
    assert_eq!((back.rows[1].incarnation, back.rows[1].seen), (5, 60));
    let newer = back.heard(2, 9, 40).unwrap();
    assert_eq!((newer.rows[1].incarnation, newer.rows[1].seen), (9, 60));
    assert_eq!(newer.heard(2, 8, 70), Err(Refusal::Stale));
    assert_eq!(newer.heard(1, 8, 70), Err(Refusal::SelfPeer));
    assert_eq!(newer.heard(3, 8, 70), Err(Refusal::UnknownPeer));
}

#[test]
fn reports() {
    let state = |table: PeerTable| {
        (
            table.rows[1].state,
            table.rows[1].incarnation,
            table.rows[1].seen,
        )
    };
    let suspect = pair().reported(2, SUSPECT, 5, 50).unwrap();
    assert_eq!(state(suspect), (SUSPECT, 5, 0));
    assert_eq!(
        state(suspect.reported(2, ALIVE, 5, 50).unwrap()),
        (SUSPECT, 5, 0)
    );
    assert_eq!(
        state(suspect.reported(2, DOWN, 5, 50).unwrap()),
        (DOWN, 5, 0)
    );
    let alive = suspect.reported(2, ALIVE, 6, 50).unwrap();
    assert_eq!(state(alive), (ALIVE, 6, 50));
    assert_eq!(
        state(alive.reported(2, ALIVE, 7, 40).unwrap()),
        (ALIVE, 7, 50)
    );
    assert_eq!(
        state(alive.reported(2, SUSPECT, 7, 90).unwrap()),
        (SUSPECT, 7, 50)
    );
    assert_eq!(
        state(alive.reported(2, ALIVE, 6, 90).unwrap()),
        (ALIVE, 6, 50)
    );
    assert_eq!(alive.reported(2, DOWN, 5, 50), Err(Refusal::Stale));
}

#[test]
fn the_order_of_report_refusals() {
    let table = pair();
    let report = |id, state, now| table.reported(id, state, 0, now);
    assert_eq!(report(1, 3, LAST + 1), Err(Refusal::BadTime));
    assert_eq!(report(1, 3, 0), Err(Refusal::BadArgument));
    assert_eq!(report(1, 2, 0), Err(Refusal::SelfPeer));
    assert_eq!(report(3, 2, 0), Err(Refusal::UnknownPeer));
    assert_eq!(report(2, 2, 0), Err(Refusal::Stale));
}

#[test]
fn ages() {
    let state = |now| pair().tick(now).unwrap().rows[1].state;
    assert_eq!(state(4_999), ALIVE);
    assert_eq!(state(5_000), SUSPECT);
    assert_eq!(state(14_999), SUSPECT);
    assert_eq!(state(15_000), DOWN);
    assert_eq!(state(LAST), DOWN);
}

#[test]
fn a_tick_leaves_the_own_row_and_later_times_alone() {
    assert_eq!(pair().tick(LAST).unwrap().rows[0], fresh().rows[0]);
    let later = pair().heard(2, 5, 9_000).unwrap();
    assert_eq!(later.tick(0), Ok(later));
    let down = later.reported(2, DOWN, 5, 0).unwrap();
    assert_eq!(down.tick(9_000), Ok(down));
    assert_eq!(down.tick(14_000), Ok(down));
    assert_eq!(down.tick(LAST + 1), Err(Refusal::BadTime));
    let unsound = PeerTable { count: 11, ..down };
    assert_eq!(unsound.tick(0), Err(Refusal::BadArgument));
}

#[test]
fn unsound_tables() {
    let change = |edit: fn(&mut PeerTable)| {
        let mut table = full();
        edit(&mut table);
        table
    };
    let unsound = [
        change(|t| t.count = 0),
        change(|t| t.count = 11),
        change(|t| t.count = usize::MAX),
        change(|t| t.rows[9].id = 1),
        change(|t| t.rows[9].id = 9),
        change(|t| t.rows[0].state = SUSPECT),
        change(|t| t.rows[9].state = 3),
        change(|t| t.rows[9].seen = LAST + 1),
        change(|t| t.rows[0].seen = LAST + 1),
    ];
    for table in unsound {
        assert!(!table.is_sound());
        assert_eq!(table.tick(0), Err(Refusal::BadArgument));
        assert_eq!(table.heard(1, 0, 0), Err(Refusal::BadArgument));
        assert_eq!(table.reported(1, 0, 0, 0), Err(Refusal::BadArgument));
        assert_eq!(table.add(1, [0; 4], 0, 0, 0), Err(Refusal::BadArgument));
    }
    let unused = change(|t| {
        t.count = 9;
        t.rows[9].state = 200;
    });
    assert!(unused.is_sound());
}

#[test]
fn admission() {
    let down = pair().reported(2, DOWN, 5, 0).unwrap();
    let suspect = pair().reported(2, SUSPECT, 5, 0).unwrap();
    assert!(down.admits(Admission::Home, 2));
    assert!(!down.admits(Admission::Standing, 2));
    assert!(suspect.admits(Admission::Standing, 2));
    assert!(!suspect.admits(Admission::Home, 3));
    assert!(!suspect.admits(Admission::Standing, 3));
}

fn random_table(rng: &mut Rng) -> PeerTable {
    let mut table = fresh();
    table.count = 1 + rng.index(ROWS_MAX);
    let first = rng.byte();
    for (i, row) in table.rows.iter_mut().enumerate() {
        row.id = first.wrapping_add(3 * i as u8);
        row.address = [rng.byte(), rng.byte(), rng.byte(), rng.byte()];
        row.port = rng.word() as u16;
        row.state = if i == 0 { ALIVE } else { rng.below(3) as u8 };
        row.incarnation = rng.below(4) as u32;
        row.seen = rng.below(20_000);
    }
    if rng.one_in(10) {
        let row = &mut table.rows[rng.index(ROWS_MAX)];
        match rng.below(3) {
            0 => row.id = first,
            1 => row.state = 1 + rng.below(4) as u8,
            _ => row.seen = LAST + rng.below(3),
        }
    }
    table
}

/// Some row's id, or one near it.
fn random_id(rng: &mut Rng, table: &PeerTable) -> u8 {
    let id = table.rows[rng.index(ROWS_MAX)].id;
    id.wrapping_add(u8::from(rng.one_in(8)))
}

fn row_of(table: &PeerTable, id: u8) -> Option<Row> {
    table.rows[..table.count]
        .iter()
        .copied()
        .find(|r| r.id == id)
}

#[test]
fn random_events_keep_a_sound_table_sound() {
    let mut rng = Rng::new(5);
    for _ in 0..100_000 {
        let table = random_table(&mut rng);
        let id = random_id(&mut rng, &table);
        let (state, incarnation) = (rng.below(4) as u8, rng.below(5) as u32);
        let now = if rng.one_in(20) {
            LAST + rng.below(2)
        } else {
            rng.below(40_000)
        };
        let next = match rng.below(4) {
            0 => table.add(id, [1, 2, 3, 4], 5, incarnation, now),
            1 => table.heard(id, incarnation, now),
            2 => table.reported(id, state, incarnation, now),
            _ => table.tick(now),
        };
        match next {
            Ok(next) => {
                assert!(table.is_sound() && next.is_sound());
                assert_eq!(next.rows[0], table.rows[0]);
                assert_eq!(next.rows[next.count..], table.rows[next.count..]);
            }
            Err(Refusal::BadTime) => assert!(now > LAST),
            Err(Refusal::BadArgument) => assert!(!table.is_sound() || state == 3),
            Err(_) => assert!(table.is_sound()),
        }
    }
}

#[test]
fn random_reports_take_the_greater_pair() {
    let mut rng = Rng::new(6);
    for _ in 0..50_000 {
        let table = random_table(&mut rng);
        let id = random_id(&mut rng, &table);
        let (state, incarnation, now) =
            (rng.below(3) as u8, rng.below(5) as u32, rng.below(40_000));
        let Ok(next) = table.reported(id, state, incarnation, now) else {
            continue;
        };
        let mut expected = row_of(&table, id).unwrap();
        let renewed = incarnation > expected.incarnation && state == ALIVE;
        let greater = (expected.incarnation, expected.state).max((incarnation, state));
        (expected.incarnation, expected.state) = greater;
        if renewed && now > expected.seen {
            expected.seen = now;
        }
        assert_eq!(row_of(&next, id), Some(expected));
    }
}

#[test]
fn random_ticks_take_the_worse_state() {
    let mut rng = Rng::new(7);
    for _ in 0..50_000 {
        let table = random_table(&mut rng);
        let now = rng.below(40_000);
        let Ok(next) = table.tick(now) else { continue };
        let mut expected = table;
        for row in &mut expected.rows[1..table.count] {
            let by_age = u8::from(row.seen + 5_000 <= now) + u8::from(row.seen + 15_000 <= now);
            row.state = row.state.max(by_age);
        }
        assert_eq!(next, expected);
    }
}
