//! The module `frame::error`: an error manager that records what it is told.

use crate::types::NodeId;
use alloc::vec::Vec;

#[derive(Debug, Clone, Copy, PartialEq, Eq)]
pub enum DllError {
    PdoMapVersion { node_id: NodeId },
    PdoPayloadShort { node_id: NodeId },
}

pub trait ErrorCounters {}

pub trait ErrorHandler {}

#[derive(Debug, Default)]
pub struct CnErrorCounters;

impl ErrorCounters for CnErrorCounters {}

#[derive(Debug, Default)]
pub struct LoggingErrorHandler;

impl ErrorHandler for LoggingErrorHandler {}

/// `calls` holds every reported error, in order.
#[derive(Debug, Default)]
pub struct DllErrorManager<C: ErrorCounters, H: ErrorHandler> {
    pub counters: C,
    pub handler: H,
    pub calls: Vec<DllError>,
}

impl<C: ErrorCounters, H: ErrorHandler> DllErrorManager<C, H> {
    pub fn handle_error(&mut self, error: DllError) {
        self.calls.push(error);
    }
}

#[derive(Debug, Clone, Copy, PartialEq, Eq)]
pub struct ErrorEntry;
