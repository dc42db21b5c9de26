//! Root of the crate that the unchanged files and these shims form.
//! A shim has just what the unchanged files need in order to compile, and
//! records the calls that a comparison has to see.
#![no_std]

extern crate alloc;

pub mod common;
pub mod frame;
pub mod hal;
pub mod nmt;
pub mod node;
pub mod od;
pub mod pdo;
pub mod reach;
pub mod sdo;
pub mod types;

pub use frame::error::ErrorHandler;
pub use hal::PowerlinkError;
pub use types::NodeId;
