//! For people: records, calls and sections as lines, recordings, as-run lists, scenarios.

pub mod aside;
pub mod asrun;
pub mod card;
pub mod carriage;
pub mod check;
pub mod cue_call;
pub mod cue_command;
pub mod decode;
pub mod driver_call;
pub mod driver_recording;
pub mod field_names;
pub mod looks;
pub mod made;
pub mod make_recording;
pub mod ninths;
pub mod recall;
pub mod record_lines;
pub mod referee;
pub mod rolling;
pub mod scenario;
pub mod section_bytes;
pub mod segmentation;
pub mod shown;
pub mod utc;
pub mod why;
