//! Consuming received payloads.

use super::Dictionary;
use crate::answer::{done, fit};
use crate::event::{Events, Payload, ReceivedPayload};
use crate::refusal::Refusal;
use crate::sys;
use crate::types::{NodeId, PDOVersion};
use crate::MOST_PAYLOADS;

/// The most events of a payload.
const MOST_EVENTS: usize = 254;

impl Dictionary {
    /// Consumes a received payload: the sender's channel is found, its version compared, and each field that its mapping
    /// has is written to its target, in order. Nothing happens for a payload that is not ready or whose sender has no
    /// channel. In [edition 2](crate::Edition::Two) the elements in use alone are taken, and a mapping that is turned off has
    /// the version compared and nothing written.
    ///
    /// A run that stops half-way is no refusal: the fields before the stop are written, and the last event says why.
    ///
    /// Refuses with [`PayloadTooLong`](Refusal::PayloadTooLong) a payload over 1490 bytes.
    pub fn consume_pdo_payload(
        &mut self,
        source_node_id: NodeId,
        payload: &[u8],
        received_version: PDOVersion,
        is_ready: bool,
    ) -> Result<Events, Refusal> {
        self.make_event_room(1);
        let mut count = 0;
        done(sys::consume_pdo_payload(
            &mut self.parts,
            payload,
            source_node_id.0,
            received_version.0,
            is_ready,
            &mut self.events,
            &mut count,
        ))?;
        Ok(Events::of(&self.events[..fit(count)]))
    }

    /// Consumes the payloads of a cycle, one after another, each as
    /// [`consume_pdo_payload`](Dictionary::consume_pdo_payload) would; the dictionary is judged once.
    ///
    /// Refuses, before any is consumed, with [`BadValue`](Refusal::BadValue) more than 1024 payloads and one that does
    /// not lie within what was delivered, and with [`PayloadTooLong`](Refusal::PayloadTooLong) one over 1490 bytes.
    pub fn consume_cycle(
        &mut self,
        delivered: &[u8],
        payloads: &[Payload],
    ) -> Result<Events, Refusal> {
        self.make_event_room(payloads.len().min(MOST_PAYLOADS));
        let numbers: Vec<u64> = payloads.iter().flat_map(|payload| payload.numbers()).collect();
        let (mut consumed, mut count) = (0, 0);
        done(sys::consume_cycle(
            &mut self.parts,
            delivered,
            &numbers,
            &mut self.events,
            &mut consumed,
            &mut count,
        ))?;
        debug_assert_eq!(consumed, payloads.len() as u64);
        Ok(Events::of(&self.events[..fit(count)]))
    }

    /// Consumes the payloads of a cycle as [`consume_cycle`](Dictionary::consume_cycle) does, each from bytes of its own,
    /// which are copied behind each other.
    ///
    /// ```
    /// use loomfinch::{Dictionary, NodeId, PDOVersion, ReceivedPayload};
    ///
    /// let mut dictionary = Dictionary::new(Default::default());
    /// let (source_node_id, received_version) = (NodeId(5), PDOVersion(0x12));
    /// let payload = &[0xC4, 0x09];
    /// let one = ReceivedPayload { payload, source_node_id, received_version, is_ready: true };
    /// assert!(dictionary.consume_payloads(&[one])?.is_empty());
    /// # Ok::<(), loomfinch::Refusal>(())
    /// ```
    pub fn consume_payloads(
        &mut self,
        payloads: &[ReceivedPayload<'_>],
    ) -> Result<Events, Refusal> {
        let mut delivered = Vec::new();
        let mut placed = Vec::new();
        for received in payloads {
            placed.push(Payload {
                start: delivered.len(),
                len: received.payload.len(),
                source_node_id: received.source_node_id,
                received_version: received.received_version,
                is_ready: received.is_ready,
            });
            delivered.extend_from_slice(received.payload);
        }
        self.consume_cycle(&delivered, &placed)
    }

    /// Sets the bit of a node, 1 to 239, in the error object at an index, where that is an OctetString Variable which now
    /// has the byte of that bit; elsewhere nothing happens.
    pub fn update_pdo_error_object(
        &mut self,
        object_index: u16,
        source_node_id: NodeId,
    ) -> Result<(), Refusal> {
        done(sys::update_pdo_error_object(&mut self.parts, object_index, source_node_id.0))
    }

    /// Makes room for all events of so many payloads, so that none lacks it.
    fn make_event_room(&mut self, payloads: usize) {
        let room = MOST_EVENTS * payloads;
        if self.events.len() < room {
            self.events.resize(room, 0);
        }
    }
}
