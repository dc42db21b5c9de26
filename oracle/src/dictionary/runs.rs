//! The runs: histories held against the port, and what they must reach.

pub mod admission;
pub mod asking;
pub mod bounds;
pub mod consumed;
pub mod counts;
pub mod demand;
pub mod edition_goals;
pub mod editions;
pub mod faults;
pub mod goals;
pub mod halves;
pub mod histories;
pub mod images;
pub mod malice;
pub mod no_values;
pub mod ranged;
pub mod restored;
pub mod rooms;
pub mod saves;
pub mod shrink;
pub mod trial;
pub mod tried;
pub mod whole;
pub mod written;
