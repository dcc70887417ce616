//! A rolling card's calls (02, CR 9) as lines.

use crate::people::record_lines::Line;
pub use rules::rolling::{Call, Rolling, LIMIT};
pub use rules::times::HORIZON;

impl Line for Call {
    fn line(&self) -> String {
        match self {
            Call::Plain(call) => crate::people::decode::call_line(call),
            Call::Instant { seconds, micros, reading } => {
                format!("instant Seconds={seconds} MicroSeconds={micros} reading={reading}")
            }
            Call::Reading(reading) => format!("reading {reading}"),
        }
    }
}
