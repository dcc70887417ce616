//! The desk's page (02, CR 8) as the core fills it, with guard rows around the rows lent.

use crate::calls::{Row, ROWS};
use crate::looks::Core;
use crate::wrong::Wrong;

/// Guard rows before and behind those lent.
const GUARD: usize = 3;
/// The most rows lent.
const MOST: usize = 32;
/// What is lent besides sixteen rows: "house number 16 for other than sixteen rows".
const OTHERS: [usize; 5] = [0, 1, 15, 17, MOST];

fn numbers(row: &splicer::Row) -> Row {
    let [kept, connection, session] = [row.kept, row.connection, row.session];
    [kept, connection, session, row.event, row.result, row.played]
}

/// A row that no page has, another one at every place and every turn.
fn odd(place: usize, turn: usize) -> splicer::Row {
    let drawn = (turn * 64 + place) as u32;
    splicer::Row {
        kept: 0x5A00_0000 | drawn,
        connection: !drawn,
        session: drawn.wrapping_mul(0x9E37_79B9),
        event: drawn ^ 0xA5A5_A5A5,
        result: drawn | 0xFF00_0000,
        played: drawn.wrapping_add(7),
    }
}

/// The rows that are lent, and the guard rows around them.
struct Lent {
    rows: [splicer::Row; MOST + 2 * GUARD],
    turn: usize,
}

impl Lent {
    fn new(turn: usize) -> Lent {
        Lent { rows: std::array::from_fn(|place| odd(place, turn)), turn }
    }

    fn rows(&mut self, count: usize) -> &mut [splicer::Row] {
        &mut self.rows[GUARD..GUARD + count]
    }

    /// Whether a row outside the first ones lent changed.
    fn touched(&self, count: usize) -> bool {
        let lent = GUARD..GUARD + count;
        (0..self.rows.len()).any(|place| !lent.contains(&place) && self.rows[place] != odd(place, self.turn))
    }
}

/// The page with sixteen rows lent, behind a refusal of another number of them, which writes nothing.
pub fn read(core: &impl Core, turn: usize, wrong: Wrong) -> Result<[Row; ROWS], String> {
    let mut lent = Lent::new(turn);
    refused(core, &mut lent, wrong)?;
    if let Err(refusal) = core.ended(lent.rows(ROWS)) {
        return Err(format!("sixteen rows: refused {}", refusal.number()));
    }
    wrong.filled(lent.rows(ROWS));
    wrong.beyond(&mut lent.rows[GUARD + ROWS]);
    if lent.touched(ROWS) {
        return Err("a row outside the page changed".to_string());
    }
    let found: [Row; ROWS] = std::array::from_fn(|place| numbers(&lent.rows[GUARD + place]));
    let list = core.rows().map(|row| row.map_or([0; 6], |row| numbers(&row)));
    match wrong == Wrong::Nothing && found != list {
        true => Err(format!("rows(): {list:?}, ended(): {found:?}")),
        false => Ok(found),
    }
}

fn refused(core: &impl Core, lent: &mut Lent, wrong: Wrong) -> Result<(), String> {
    let count = OTHERS[lent.turn % OTHERS.len()];
    let said = core.ended(lent.rows(count));
    let number = wrong.taken(count, said.map_or_else(|refusal| refusal.number(), |()| 0));
    if number != 16 {
        return Err(format!("{count} rows lent: {number} and not 16"));
    }
    match lent.touched(0) {
        true => Err(format!("{count} rows lent: refused, and a row changed")),
        false => Ok(()),
    }
}
