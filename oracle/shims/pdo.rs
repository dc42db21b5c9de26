//! The module `pdo`: the mapping word is the Rust's, its error type is not published.

pub mod mapping;

pub use mapping::{PDOVersion, PayloadSize, PayloadSizeError, PdoMappingEntry};

#[derive(Debug)]
pub enum PdoError {
    ObjectNotFound {
        index: u16,
        sub_index: u8,
    },
    TypeMismatch {
        index: u16,
        sub_index: u8,
        expected_bits: u16,
        actual_bits: u16,
    },
    PayloadTooSmall {
        expected_bits: u16,
        actual_bytes: usize,
    },
    ConfigurationError(&'static str),
}
