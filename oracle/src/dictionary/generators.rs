//! Random objects, dictionaries, calls and payloads.

pub mod breakage;
pub mod calls;
pub mod cells;
pub mod channels;
pub mod checks;
pub mod counts;
pub mod dictionaries;
pub mod fields;
pub mod literals;
pub mod mappings;
pub mod objects;
pub mod payloads;
pub mod ranges;
pub mod restores;
pub mod spoil;
pub mod writes;
