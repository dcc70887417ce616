//! What ended lately (02, CR 8).

use crate::people::card;
use rules::state::{By, Ended, Session, Splicer, State};
use rules::times::NONE;

fn fresh() -> Splicer {
    Splicer::fresh(&card::channel_name()).0
}

fn session(conn: u8, id: u32) -> Session {
    Session {
        conn,
        id,
        prior: NONE,
        start: 0,
        end: 0,
        access: 0,
        overrides: false,
        mux: 5,
        event: 70 + id,
        state: State::Waiting,
        played: 0,
        since: 0,
    }
}

#[test]
fn the_newest_first_and_the_rest_empty() {
    let mut splicer = fresh();
    assert_eq!(splicer.rows(), [None; 16]);
    for id in 1..=2 {
        splicer.remember(&session(3, id), By::Splice, 116, 0);
    }
    let row = |id: u32| Some(Ended { conn: 3, id, event: 70 + id, result: 116, played: 0 });
    let rows = splicer.rows();
    assert_eq!(rows[..2], [row(2), row(1)]);
    assert_eq!(rows[2..], [None; 14]);
}

#[test]
fn sixteen_are_kept_and_the_oldest_goes_first() {
    let mut splicer = fresh();
    let ids = |s: &Splicer| -> Vec<u32> {
        let rows = s.rows();
        rows.iter().flatten().map(|r| r.id).collect()
    };
    for id in 1..=15 {
        splicer.remember(&session(0, id), By::Splice, 116, 0);
    }
    assert_eq!(ids(&splicer), (1..=15).rev().collect::<Vec<_>>());
    splicer.remember(&session(1, 16), By::Splice, 116, 0);
    assert_eq!(ids(&splicer), (1..=16).rev().collect::<Vec<_>>());
    splicer.remember(&session(2, 17), By::Splice, 116, 0);
    assert_eq!(ids(&splicer), (2..=17).rev().collect::<Vec<_>>());
}

#[test]
fn other_than_sixteen_rows_are_refused() {
    let mut splicer = fresh();
    splicer.remember(&session(0, 1), By::Splice, 109, 0);
    let odd = Some(Ended { conn: 9, id: 8, event: 7, result: 6, played: 5 });
    for count in [0, 1, 15, 17, 32] {
        let mut rows = vec![odd; count];
        assert_eq!(splicer.page(&mut rows), Err(16), "{count}");
        assert_eq!(rows, vec![odd; count]);
    }
    let mut rows = vec![odd; 16];
    assert_eq!(splicer.page(&mut rows), Ok(()));
    assert_eq!(rows, splicer.rows());
}
