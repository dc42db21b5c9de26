//! Which poll requests (PReq) of a capture are for the rig: they are addressed to one node each.

use crate::capture::Capture;
use crate::frame::{self, Frame};
use std::collections::BTreeSet;
use std::io::Read;

/// The poll requests that the rig is given.
#[derive(Clone, Copy, Debug, PartialEq, Eq)]
pub enum Requests {
    /// Those to the console's own node, as the person who called said.
    To(u8),
    /// All: they go to one node only.
    All,
    /// None: they go to several nodes, and which of them the rig is was not said.
    SeveralNodes,
    /// None: the capture can be read once only, and which nodes they go to is not known before its end.
    ReadOnce,
}

impl Requests {
    /// Those of a capture that can be read from its beginning again: up to its end, or its damage.
    pub fn of_capture(reader: Box<dyn Read>) -> Requests {
        let mut asked = BTreeSet::new();
        let mut capture = match Capture::open(reader) {
            Ok(capture) => capture,
            Err(_) => return Requests::All,
        };
        while let Ok(Some(packet)) = capture.next_packet() {
            asked.extend(destination(&frame::dissect(packet.link, &packet.bytes)));
            if asked.len() > 1 {
                return Requests::SeveralNodes;
            }
        }
        Requests::All
    }

    pub fn take(self, destination: Option<u8>) -> bool {
        match self {
            Requests::To(node) => destination == Some(node),
            Requests::All => true,
            Requests::SeveralNodes | Requests::ReadOnce => false,
        }
    }

    /// What is said of requests that were left out without being asked for.
    pub fn note(self, asked: &BTreeSet<u8>) -> Option<String> {
        let nodes: Vec<String> = asked.iter().map(u8::to_string).collect();
        let went = match nodes.len() {
            0 => return None,
            1 => format!("PReq frames went to node {} and were left out", nodes[0]),
            _ => format!("PReq frames went to nodes {} and were left out", nodes.join(", ")),
        };
        match self {
            Requests::To(_) | Requests::All => None,
            Requests::SeveralNodes => {
                Some(format!("{went}: --node N says which of them the rig is"))
            }
            Requests::ReadOnce => Some(format!(
                "{went}, since a pipe does not say beforehand where they go: --node N says which node the rig is"
            )),
        }
    }
}

/// The node that a poll request is addressed to.
pub fn destination(frame: &Frame) -> Option<u8> {
    match frame {
        Frame::Poll(poll) if poll.request => Some(poll.destination),
        Frame::Cut { request: true, destination, .. } => *destination,
        _ => None,
    }
}
