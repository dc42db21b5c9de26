//! What an Ethernet frame carries: a POWERLINK payload, or something else.

use crate::capture::Link;
use crate::rig::MANAGING_NODE;

/// The EtherType of POWERLINK.
const POWERLINK: u16 = 0x88AB;

/// EtherTypes of tags that stand before the frame's own.
const TAGS: [u16; 2] = [0x8100, 0x88A8];

/// What is not larger is a frame's length and no EtherType.
const MOST_LENGTH: u16 = 1500;

const POLL_REQUEST: u8 = 3;
const POLL_RESPONSE: u8 = 4;

/// The RD flag: the payload's data is valid.
const READY: u8 = 0x01;

/// Bytes of a poll frame before its payload, counted from the message type.
const HEAD: usize = 10;

#[derive(Debug, PartialEq, Eq)]
pub enum Frame<'a> {
    Poll(Poll<'a>),
    /// A poll frame whose size goes past its end, or that ends inside its head.
    Cut {
        request: bool,
        destination: Option<u8>,
        sender: Option<u8>,
        said: Option<usize>,
        there: usize,
    },
    /// Another POWERLINK message, by its type.
    Message(u8),
    /// Another protocol, by its EtherType.
    Foreign(u16),
    /// A frame with its length in place of an EtherType.
    Llc,
    /// Too short for an EtherType.
    Runt,
    /// Captured on something else than an Ethernet.
    OtherLink(u16),
}

/// A poll request or response: the frames that carry process data.
#[derive(Debug, PartialEq, Eq)]
pub struct Poll<'a> {
    pub request: bool,
    /// The node that the frame is addressed to.
    pub destination: u8,
    pub sender: u8,
    /// The NMT state that a response says its sender has.
    pub state: Option<u8>,
    pub version: u8,
    pub ready: bool,
    pub payload: &'a [u8],
}

/// What a packet carries that was captured on a link.
pub fn dissect(link: Link, bytes: &[u8]) -> Frame<'_> {
    // Where the EtherType stands, and what it is of.
    let (at, behind) = match link {
        Link::Ethernet => (12, 14),
        Link::Cooked => (14, 16),
        Link::Cooked2 => (0, 20),
        Link::Other(number) => return Frame::OtherLink(number),
    };
    let mut found = pair(bytes, at).zip(bytes.get(behind..));
    loop {
        match found {
            Some((POWERLINK, rest)) => return message(rest),
            Some((tag, rest)) if TAGS.contains(&tag) => found = pair(rest, 2).zip(rest.get(4..)),
            Some((0..=MOST_LENGTH, _)) => return Frame::Llc,
            Some((other, _)) => return Frame::Foreign(other),
            None => return Frame::Runt,
        }
    }
}

/// The two bytes at a place as a number, the higher first.
fn pair(bytes: &[u8], at: usize) -> Option<u16> {
    bytes.get(at..at + 2).map(|pair| u16::from_be_bytes([pair[0], pair[1]]))
}

/// A POWERLINK message, from its message type on.
fn message(bytes: &[u8]) -> Frame<'_> {
    let kind = match bytes.first() {
        Some(byte) => byte & 0x7F,
        None => return Frame::Runt,
    };
    let request = kind == POLL_REQUEST;
    if !request && kind != POLL_RESPONSE {
        return Frame::Message(kind);
    }
    let sender = if request { Some(MANAGING_NODE) } else { bytes.get(2).copied() };
    let destination = bytes.get(1).copied();
    let there = bytes.len().saturating_sub(HEAD);
    if bytes.len() < HEAD {
        return Frame::Cut { request, destination, sender, said: None, there: bytes.len() };
    }
    let said = usize::from(u16::from_le_bytes([bytes[8], bytes[9]]));
    match bytes.get(HEAD..HEAD + said) {
        Some(payload) => Frame::Poll(Poll {
            request,
            destination: bytes[1],
            sender: sender.unwrap_or(0),
            state: Some(bytes[3]).filter(|_| !request),
            version: bytes[6],
            ready: bytes[4] & READY != 0,
            payload,
        }),
        None => Frame::Cut { request, destination, sender, said: Some(said), there },
    }
}

/// The name of a POWERLINK message type.
pub fn message_name(kind: u8) -> String {
    match kind {
        1 => "SoC".to_string(),
        5 => "SoA".to_string(),
        6 => "ASnd".to_string(),
        7 => "AMNI".to_string(),
        other => format!("POWERLINK message {other:02X}h"),
    }
}

/// The name of an NMT state (EPSG DS 301, 7.1).
pub fn state_name(state: u8) -> String {
    let name = match state {
        0x00 => "Off",
        0x19 => "Initialising",
        0x29 => "Reset application",
        0x39 => "Reset communication",
        0x79 => "Reset configuration",
        0x1C => "Not active",
        0x1D => "Pre-operational 1",
        0x5D => "Pre-operational 2",
        0x6D => "Ready to operate",
        0xFD => "Operational",
        0x4D => "Stopped",
        0x1E => "Basic Ethernet",
        other => return format!("NMT state {other:02X}h"),
    };
    name.to_string()
}

#[cfg(test)]
mod tests {
    use super::*;

    fn frame(tags: &[u8], message: &[u8]) -> Vec<u8> {
        let mut bytes = vec![0; 12];
        bytes.extend(tags);
        bytes.extend([0x88, 0xAB]);
        bytes.extend(message);
        bytes
    }

    const RESPONSE: [u8; 13] = [0x04, 255, 5, 0xFD, 0x01, 0, 0x12, 0, 2, 0, 0xC4, 0x09, 0];

    #[test]
    fn a_response_has_its_source_as_sender() {
        let wanted = Poll {
            request: false,
            destination: 255,
            sender: 5,
            state: Some(0xFD),
            version: 0x12,
            ready: true,
            payload: &[0xC4, 9],
        };
        assert_eq!(dissect(Link::Ethernet, &frame(&[], &RESPONSE)), Frame::Poll(wanted));
    }

    #[test]
    fn a_request_comes_from_the_managing_node() {
        let mut request = RESPONSE;
        request[0] = 3;
        request[4] = 0x20;
        let wanted = Poll {
            request: true,
            destination: 255,
            sender: 240,
            state: None,
            version: 0x12,
            ready: false,
            payload: &[0xC4, 9],
        };
        assert_eq!(dissect(Link::Ethernet, &frame(&[], &request)), Frame::Poll(wanted));
    }

    #[test]
    fn tags_are_passed_over() {
        let plain = frame(&[], &RESPONSE);
        let tagged = frame(&[0x88, 0xA8, 0, 2, 0x81, 0x00, 0, 3], &RESPONSE);
        assert_eq!(dissect(Link::Ethernet, &plain), dissect(Link::Ethernet, &tagged));
    }

    #[test]
    fn what_is_cut_or_foreign() {
        let mut long = RESPONSE;
        long[8] = 4;
        let (request, destination, sender) = (false, Some(255), Some(5));
        let cut = Frame::Cut { request, destination, sender, said: Some(4), there: 3 };
        assert_eq!(dissect(Link::Ethernet, &frame(&[], &long)), cut);
        let head = Frame::Cut { request, destination, sender, said: None, there: 9 };
        assert_eq!(dissect(Link::Ethernet, &frame(&[], &RESPONSE[..9])), head);
        assert_eq!(dissect(Link::Ethernet, &frame(&[], &[0x01, 255, 240])), Frame::Message(1));
        assert_eq!(
            dissect(Link::Ethernet, &frame(&[0x08, 0x00], &RESPONSE)),
            Frame::Foreign(0x0800)
        );
        assert_eq!(dissect(Link::Ethernet, &frame(&[0x05, 0xDC], &RESPONSE)), Frame::Llc);
        assert_eq!(
            dissect(Link::Ethernet, &frame(&[0x05, 0xDD], &RESPONSE)),
            Frame::Foreign(0x05DD)
        );
        assert_eq!(dissect(Link::Ethernet, &[0; 13]), Frame::Runt);
        assert_eq!(dissect(Link::Ethernet, &frame(&[], &[])), Frame::Runt);
    }

    #[test]
    fn cooked_heads_have_their_own_length() {
        let message = [&[0x88, 0xAB][..], &RESPONSE].concat();
        let plain = frame(&[], &RESPONSE);
        let wanted = dissect(Link::Ethernet, &plain);
        let cooked = [&[0; 14][..], &message].concat();
        assert_eq!(dissect(Link::Cooked, &cooked), wanted);
        let tagged = [&[0; 14][..], &[0x81, 0, 0xE0, 0x0A], &message].concat();
        assert_eq!(dissect(Link::Cooked, &tagged), wanted);
        let newer = [&[0x88, 0xAB][..], &[0; 18], &RESPONSE].concat();
        assert_eq!(dissect(Link::Cooked2, &newer), wanted);
        assert_eq!(dissect(Link::Cooked2, &newer[..19]), Frame::Runt);
        assert_eq!(dissect(Link::Other(127), &plain), Frame::OtherLink(127));
    }
}
