//! The deliberate mistakes, one at a time. Each is a function that stands in for one named rule; `rules` does not know
//! of them. They show that the generated calls notice what differs.

mod answers;
mod cue;
mod instants;
pub(crate) mod mistakes;
mod reading;
mod referee;
mod rolling;
mod sleep;
mod table;

pub use cue::{Miscue, MISCUES};
pub use mistakes::dashed;
pub(crate) use mistakes::mistakes;
pub use referee::{Misjudged, MISJUDGED};
pub use rolling::{Slip, SLIPS};
pub use table::{Fault, FAULTS};

use rules::right::RIGHT;
use rules::state::Rules;

/// Tells where a mistake was noticed, or that it was not; whether it was.
pub fn told(name: &str, text: &str, place: Option<String>) -> bool {
    match &place {
        Some(place) => println!("{name} noticed in {place}: {text}"),
        None => println!("{name} NOT NOTICED: {text}"),
    }
    place.is_some()
}

/// The right rules, or those with a fault.
pub fn rules_of(fault: Option<Fault>) -> &'static Rules {
    fault.map_or(&RIGHT, Fault::rules)
}

#[cfg(test)]
mod tests {
    use super::*;

    #[test]
    fn a_name_names_its_fault() {
        for (fault, text) in FAULTS {
            assert_eq!(Fault::named(&fault.name()), Some(*fault));
            assert_eq!(fault.text(), *text);
        }
        assert_eq!(Fault::Descriptor255.name(), "descriptor-255");
        assert_eq!(Fault::OnlyDirectFollower.name(), "only-direct-follower");
        assert_eq!(Fault::named("2"), None);
        for (miscue, text) in MISCUES {
            assert_eq!(Miscue::named(&miscue.name()), Some(*miscue));
            assert_eq!(miscue.text(), *text);
        }
        assert_eq!(Miscue::LengthOf10.name(), "cue-length-of-10");
    }
}
