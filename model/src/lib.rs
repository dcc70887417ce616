//! The second program as a library, for its own command `model` and for `beside`, which calls it in
//! one process with the proved core. It uses nothing of the core.
#![allow(clippy::new_without_default, clippy::should_implement_trait)]

#[path = "../gen/mod.rs"]
pub mod gen;
#[path = "../hold/mod.rs"]
pub mod hold;
#[path = "../people/mod.rs"]
pub mod people;
#[path = "../referee/mod.rs"]
pub mod referee;
#[cfg(test)]
mod tests;

mod names;
pub use names::*;

pub use hold::{faults, recorded_streams};
pub use people::{aside, carriage, check, cue_call, cue_command, make_recording, scenario, shown};

/// What `desk` takes of the card program's runs.
pub mod card {
    pub use crate::hold::run::by as run;
    pub use crate::people::card::{channel_name, input_bytes, is_too_large, make, next_call, Call, Done, Run, Stop};
}

/// What `desk` takes of records.
pub mod records {
    pub use ::rules::bytes::all_bytes;
}
