//! The rules of document 01 and then of 02's requests, each under its sentence, from these documents and ITU-T J.280 alone; slow
//! on purpose. Their order: calls, state; bytes, descriptors, times; answers, requests, reading, splice; instants, ends; card; then
//! streams, config, sections, cue, lately, rolling, recall, recording, check; sleep. `../README.md` has each sentence's place.

pub mod answers;
pub mod bytes;
pub mod calls;
pub mod card;
pub mod check;
pub mod config;
pub mod cue;
pub mod descriptors;
pub mod ends;
pub mod instants;
pub mod lately;
pub mod reading;
pub mod recall;
pub mod recording;
pub mod requests;
pub mod right;
pub mod rolling;
pub mod sections;
pub mod sleep;
pub mod splice;
pub mod state;
pub mod streams;
pub mod times;
