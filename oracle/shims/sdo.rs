//! The module `sdo`: the embedded server and client record what is handed to
//! them, and have zeros to send.

use crate::od::ObjectDictionary;
use crate::{NodeId, PowerlinkError};
use alloc::{vec, vec::Vec};

pub mod transport {
    #[derive(Debug, Default)]
    pub struct AsndTransport;
}

#[derive(Debug, Default)]
pub struct SdoServer;

#[derive(Debug, Default)]
pub struct SdoClient;

impl SdoClient {
    pub fn queue_request(&mut self, _target: NodeId, _payload: Vec<u8>) {}
}

/// `requests` holds the channel and the bytes of every request, in order.
#[derive(Debug, Default)]
pub struct EmbeddedSdoServer {
    pub requests: Vec<(u16, Vec<u8>)>,
}

impl EmbeddedSdoServer {
    pub fn handle_request(&mut self, channel: u16, data: &[u8], _od: &mut ObjectDictionary) {
        self.requests.push((channel, data.to_vec()));
    }

    pub fn get_pending_response(&mut self, _channel: u16, length: usize) -> Vec<u8> {
        vec![0; length]
    }
}

/// `responses` holds the channel and the bytes of every response, in order.
#[derive(Debug, Default)]
pub struct EmbeddedSdoClient {
    pub responses: Vec<(u16, Vec<u8>)>,
}

impl EmbeddedSdoClient {
    pub fn handle_response(&mut self, channel: u16, data: &[u8]) {
        self.responses.push((channel, data.to_vec()));
    }

    pub fn get_pending_request(&mut self, _channel: u16, length: usize) -> Vec<u8> {
        vec![0; length]
    }

    pub fn queue_read(
        &mut self,
        _channel: u16,
        _index: u16,
        _sub_index: u8,
    ) -> Result<(), PowerlinkError> {
        Ok(())
    }

    pub fn queue_write(
        &mut self,
        _channel: u16,
        _index: u16,
        _sub_index: u8,
        _data: Vec<u8>,
    ) -> Result<(), PowerlinkError> {
        Ok(())
    }
}
