//! The map section that the core gives back (02, CR 6): one of two lent ones, as it was lent.

use crate::looks::Core;
use crate::wrong::Wrong;
use splicer::Maps;

/// Lengths of the two sections in turn; the call that gives one back refuses none.
const LENGTHS: [(usize, usize); 6] = [(7, 9), (1, 1), (0, 5), (5, 0), (1_024, 1_024), (2_000, 3)];

/// What is lent; it is read-only, so a write to it would end the program.
static MEMORY: [u8; 2_048] = [0x4D; 2_048];

/// Whether it is the insertion's.
pub fn read(core: &impl Core, turn: usize, wrong: Wrong) -> Result<bool, String> {
    let (primary, insertion) = LENGTHS[turn % LENGTHS.len()];
    let (primary, insertion) = MEMORY[..primary + insertion].split_at(primary);
    let maps = Maps { primary, insertion };
    let found = core.map(&maps);
    let of = |section: &[u8]| section.as_ptr_range();
    let other = match found.as_ptr_range() == of(insertion) {
        true => primary,
        false => insertion,
    };
    let found = wrong.given(found, other).as_ptr_range();
    // an empty one stands where the other begins or ends
    match (found == of(primary), found == of(insertion)) {
        (true, false) => Ok(false),
        (false, true) => Ok(true),
        _ => Err("a map that is neither of the lent sections".to_string()),
    }
}
