//! How long calls take, in the port and in the Rust.

pub mod bench;
mod payload_times;
mod times;
