//! What calls must give: the rules read a second time, and the unchanged Rust.

pub mod answers;
pub mod backend;
pub mod between;
pub mod causes;
pub mod checked;
pub mod consuming;
pub mod counted;
pub mod edition;
pub mod explained;
pub mod image;
pub mod insertion;
pub mod layout;
pub mod malformed;
pub mod marking;
pub mod memory;
pub mod node;
pub mod range;
pub mod ranged;
pub mod restoring;
pub mod running;
pub mod rust;
pub mod sound;
pub mod step;
pub mod unused;
pub mod world;
pub mod writing;
