//! Holding programs to the rules, and the rules to the documents: comparing, faults, branches counted.

pub mod cases;
pub mod check_mistakes;
pub mod compare;
pub mod cue_streams;
pub mod demand3;
pub mod due;
pub mod faults;
pub mod fuzz;
pub mod lapses;
pub mod pieces;
pub mod primary;
pub mod recall_streams;
pub mod recorded_streams;
pub mod referee_streams;
pub mod rolling_streams;
pub mod run;
pub mod run_scenarios;
pub mod state_lines;
pub mod watch;
pub mod worked;
