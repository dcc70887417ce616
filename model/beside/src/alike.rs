//! What is read of the core is what is read of the second program, and what the records alone say.

use crate::books::Books;
use crate::calls::model_rows;
use crate::looks::{shown, Core, Told};
use crate::wrong::Wrong;
use crate::{maps, pages};
use model::rules;
use splicer::CONNECTIONS;

impl Told {
    /// What a driver reads of the core to sleep is what it reads of the second program, and what the records alone give.
    pub fn same(&mut self, core: &impl Core, model: &rules::Splicer, books: &Books, wrong: Wrong) -> Result<(), String> {
        self.fill(core);
        wrong.read(self);
        let air = self.air == model.air().map(|session| shown(&session).air());
        let sessions = model.sessions();
        if !air || self.due != model.due() || !self.sessions.iter().copied().eq(sessions.iter().map(shown)) {
            return Err(format!("reads: core {self:?}\nsecond program {:?}", Told::model(model)));
        }
        books.reads(self)
    }
}

/// The two are the same number.
fn same<T: PartialEq + std::fmt::Debug>(what: &str, core: &T, model: &T) -> Result<(), String> {
    match core == model {
        true => Ok(()),
        false => Err(format!("{what}: core {core:?}, second program {model:?}")),
    }
}

/// What is read after every call, refused ones too, is what is read of the second program, and what the records alone give:
/// the waiting counts (02, CR 2), the time on the primary channel (CR 13), the value on air (CR 5), the page (CR 8), the map (CR 6).
pub fn after(
    core: &impl Core,
    waiting: [u64; CONNECTIONS],
    model: &rules::Splicer,
    books: &Books,
    turn: usize,
    wrong: Wrong,
) -> Result<(), String> {
    same("waiting", &waiting, &model.waiting_counts().map(|n| n as u64))?;
    books.waiting(waiting)?;
    let primary = wrong.primary(core.primary(), model.clock);
    same("primary", &primary, &model.primary)?;
    books.primary(primary)?;
    let mux = core.mux();
    same("mux", &mux, &model.mux())?;
    books.mux(mux)?;
    let rows = pages::read(core, turn, wrong)?;
    same("rows", &rows, &model_rows(model))?;
    books.rows(&rows)?;
    let insertion = maps::read(core, turn, wrong)?;
    same("the map is the insertion's", &insertion, &model.insertion())?;
    books.insertion(insertion)
}
