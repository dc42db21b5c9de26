//! Every call, and every refusal that a caller can reach.

mod checking;
mod codec;
mod consuming;
mod converting;
mod editions;
mod explaining;
mod inserting;
mod lasting;
mod listing;
mod mapping;
mod ranges;
mod reading;
mod refusing;
mod rig;
mod storing;
mod writing;
