//! What is printed: differences, and how often each answer was reached.

pub mod show;
pub mod tally;
