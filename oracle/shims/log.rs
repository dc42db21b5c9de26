//! Stands for the crate `log` with every level off: a line is type-checked
//! and never made, so that logging costs nothing in a comparison of speed.
#![no_std]

#[macro_export]
macro_rules! off {
    ($($line:tt)*) => {
        if false {
            let _ = ::core::format_args!($($line)*);
        }
    };
}

pub use off as debug;
pub use off as error;
pub use off as info;
pub use off as trace;
pub use off as warn;
