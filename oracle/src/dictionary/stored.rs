//! The histories that crates/cases replays.

pub mod damage;
pub mod histories;
pub mod lines;
pub mod received;
pub mod recovery;
pub mod said;
pub mod settled;
pub mod stores;
pub mod traps;
pub mod verdicts;
