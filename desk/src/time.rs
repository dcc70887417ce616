//! Times, as the second program writes and reads them for people.

pub use model::people::ninths::{ninths, read, seconds, Clock, MICRO, SECOND, TICK};
