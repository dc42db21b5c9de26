//! The node that the Rust's dictionary stands in, and what consuming is seen to do there. The
//! Rust's own run is made, step by step its own too; between two steps is looked at what the last
//! one did.

use super::running::{CLIENT, COUNT_REFUSED, FRAME, ODD, SERVER, TEXT, TOO_LONG, Told, VALUE};
use crate::fault;
use powerlink_rs::frame::basic::MacAddress;
use powerlink_rs::frame::error::{
    CnErrorCounters, DllError, DllErrorManager, ErrorCounters, ErrorHandler, LoggingErrorHandler,
};
use powerlink_rs::nmt::{NmtStateMachine, cn_state_machine::CnNmtStateMachine};
use powerlink_rs::node::{CoreNodeContext, NodeContext, PdoHandler};
use powerlink_rs::od::{Object, ObjectDictionary, ObjectValue};
use powerlink_rs::pdo::{PDOVersion, PdoMappingEntry};
use powerlink_rs::sdo::{EmbeddedSdoClient, EmbeddedSdoServer, SdoClient, SdoServer};
use powerlink_rs::{NodeId, PowerlinkError, reach};
use std::borrow::Cow;
use std::mem::take;

/// Which node it is makes no difference to what it consumes.
const OWN_ID: NodeId = NodeId(1);

pub struct Node {
    pub core: CoreNodeContext<'static>,
    errors: DllErrorManager<CnErrorCounters, LoggingErrorHandler>,
    states: CnNmtStateMachine,
}

impl Node {
    pub fn around(od: ObjectDictionary<'static>) -> Self {
        let core = CoreNodeContext {
            od,
            node_id: OWN_ID,
            mac_address: MacAddress::default(),
            sdo_server: SdoServer,
            sdo_client: SdoClient,
            embedded_sdo_server: EmbeddedSdoServer::default(),
            embedded_sdo_client: EmbeddedSdoClient::default(),
        };
        Self { core, errors: DllErrorManager::default(), states: CnNmtStateMachine }
    }

    /// The Rust's own run and all that it reports and hands off, in order. It has no rooms: a
    /// string that it puts beyond one is taken out again (R2.5), so that the run goes on as the
    /// port's does.
    pub fn watched(
        &mut self,
        sender: u8,
        payload: &[u8],
        version: u8,
        room: &dyn Fn(u16, u8) -> usize,
    ) -> Vec<Told> {
        let mut watch = Watch { node: self, room, steps: 0, told: Vec::new() };
        watch.consume_pdo_payload(NodeId(sender), payload, PDOVersion(version), true);
        let mut told = watch.told;
        // What a step reports is taken at the step, so that this is the version's.
        for error in take(&mut self.errors.calls) {
            assert_eq!(error, DllError::PdoMapVersion { node_id: NodeId(sender) });
            told.push(Told::of_version());
        }
        told
    }
}

impl NodeContext<'static> for Node {
    fn is_cn(&self) -> bool {
        true
    }

    fn node_id(&self) -> NodeId {
        OWN_ID
    }

    fn core(&self) -> &CoreNodeContext<'static> {
        &self.core
    }

    fn core_mut(&mut self) -> &mut CoreNodeContext<'static> {
        &mut self.core
    }

    fn nmt_state_machine(&self) -> &dyn NmtStateMachine {
        &self.states
    }
}

impl PdoHandler<'static> for Node {
    fn dll_error_manager(&mut self) -> &mut DllErrorManager<impl ErrorCounters, impl ErrorHandler> {
        &mut self.errors
    }
}

/// A node whose steps are looked at.
struct Watch<'a> {
    node: &'a mut Node,
    room: &'a dyn Fn(u16, u8) -> usize,
    steps: usize,
    told: Vec<Told>,
}

impl NodeContext<'static> for Watch<'_> {
    fn is_cn(&self) -> bool {
        self.node.is_cn()
    }

    fn node_id(&self) -> NodeId {
        self.node.node_id()
    }

    fn core(&self) -> &CoreNodeContext<'static> {
        self.node.core()
    }

    fn core_mut(&mut self) -> &mut CoreNodeContext<'static> {
        self.node.core_mut()
    }

    fn nmt_state_machine(&self) -> &dyn NmtStateMachine {
        self.node.nmt_state_machine()
    }
}

impl PdoHandler<'static> for Watch<'_> {
    fn dll_error_manager(&mut self) -> &mut DllErrorManager<impl ErrorCounters, impl ErrorHandler> {
        &mut self.node.errors
    }

    fn apply_rpdo_mapping_entry(
        &mut self,
        entry: &PdoMappingEntry,
        payload: &[u8],
        sender: NodeId,
    ) -> Result<(), ()> {
        let there = self.node.core.od.read(entry.index, entry.sub_index).map(Cow::into_owned);
        let ended = self.node.apply_rpdo_mapping_entry(entry, payload, sender);
        let errors = take(&mut self.node.errors.calls);
        assert_eq!(errors.is_empty(), ended.is_ok(), "a run stops where an error is reported");
        for error in errors {
            assert_eq!(error, DllError::PdoPayloadShort { node_id: sender });
            let (kind, said) = cause(entry, payload, there.as_ref());
            self.tell(kind, None, said);
        }
        if !self.tell_handed() && ended.is_ok() {
            if let (Some(there), Some(field)) = (there, field(entry, payload)) {
                self.look_at_write(entry, &there, field);
            }
        }
        self.steps += 1;
        ended
    }
}

impl Watch<'_> {
    fn tell(&mut self, kind: u64, handed: Option<(u16, Vec<u8>)>, said: Vec<u64>) {
        self.told.push(Told { step: self.steps, kind, handed, said });
    }

    /// Whether the step handed its field to the server or the client, which is then told.
    fn tell_handed(&mut self) -> bool {
        let core = &mut self.node.core;
        let requests = take(&mut core.embedded_sdo_server.requests);
        let responses = take(&mut core.embedded_sdo_client.responses);
        let handed = !requests.is_empty() || !responses.is_empty();
        requests.into_iter().for_each(|request| self.tell(SERVER, Some(request), vec![]));
        responses.into_iter().for_each(|response| self.tell(CLIENT, Some(response), vec![]));
        handed
    }

    /// A refused write is logged only. So a list's count, which the step left as it is, is written
    /// once more, and the Rust's refusal of that is looked at.
    fn look_at_write(&mut self, entry: &PdoMappingEntry, there: &ObjectValue, field: &[u8]) {
        let PdoMappingEntry { index, sub_index, .. } = *entry;
        let od = &mut self.node.core.od;
        let is_list = matches!(od.read_object(index), Some(Object::Array(_) | Object::Record(_)));
        if is_list && sub_index == 0 {
            let count = ObjectValue::deserialize(field, there).expect("the step decoded it");
            let again = reach::write_internal(od, index, sub_index, count, false);
            if let Err(error) = again {
                assert!(matches!(error, PowerlinkError::StorageError(_)), "{error:?}");
                self.tell(COUNT_REFUSED, None, vec![]);
            }
            return;
        }
        if is_string(there) && field.len() > (self.room)(index, sub_index) {
            let put = reach::write_internal(od, index, sub_index, there.clone(), false);
            put.expect("a value of its type was there");
            self.tell(TOO_LONG, None, vec![]);
        }
    }
}

fn is_string(value: &ObjectValue) -> bool {
    matches!(
        value,
        ObjectValue::VisibleString(_)
            | ObjectValue::OctetString(_)
            | ObjectValue::UnicodeString(_)
            | ObjectValue::Domain(_)
    )
}

/// None for a word that is misaligned or ends past the payload.
fn field<'a>(entry: &PdoMappingEntry, payload: &'a [u8]) -> Option<&'a [u8]> {
    let (start, length) = (entry.byte_offset()?, entry.byte_length()?);
    payload.get(start..start + length)
}

/// The Rust reports one error for all causes, so that its decoding is asked which one it was. What is
/// said besides is not the Rust's: its values have the size of their types, and a text is judged.
fn cause(entry: &PdoMappingEntry, payload: &[u8], there: Option<&ObjectValue>) -> (u64, Vec<u64>) {
    let Some(field) = field(entry, payload) else { return (FRAME, vec![]) };
    let there = there.expect("what is missing is passed over");
    match (ObjectValue::deserialize(field, there), there) {
        (Err(PowerlinkError::BufferTooShort), _) => {
            (VALUE, vec![there.serialize().len() as u64, field.len() as u64])
        }
        (Err(PowerlinkError::TypeMismatch), ObjectValue::VisibleString(_)) => {
            (TEXT, vec![fault::place(field) as u64])
        }
        (Err(PowerlinkError::TypeMismatch), ObjectValue::UnicodeString(_)) => (ODD, vec![]),
        other => panic!("the Rust stops at {other:?}, which has no cause"),
    }
}
