//! Captures of a network: classic pcap and pcapng.

mod pcap;
mod pcapng;
mod source;

use std::io::Read;

use source::Order;
pub use source::{Damage, Source};

/// A packet of a capture.
#[derive(Debug, PartialEq, Eq)]
pub struct Packet {
    /// Its number in the capture, from 1.
    pub number: u64,
    /// When it was captured, in nanoseconds; simple packet blocks do not say.
    pub time: Option<i128>,
    pub bytes: Vec<u8>,
    /// How many bytes it had on the wire.
    pub length: usize,
    pub link: Link,
}

/// What a packet was captured on: what its bytes begin with.
#[derive(Clone, Copy, Debug, PartialEq, Eq)]
pub enum Link {
    Ethernet,
    /// A Linux "cooked" capture, as of the interface `any`, whose heads have no destination.
    Cooked,
    /// The newer form of that.
    Cooked2,
    /// Anything else, by its number.
    Other(u16),
}

impl From<u16> for Link {
    fn from(number: u16) -> Link {
        match number {
            1 => Link::Ethernet,
            113 => Link::Cooked,
            276 => Link::Cooked2,
            other => Link::Other(other),
        }
    }
}

/// The most bytes of a packet: what capturing programs write at most.
const MOST_PACKET: usize = 262_144;

pub struct Capture {
    source: Source,
    form: Form,
    packets: u64,
}

enum Form {
    Pcap(pcap::Header),
    Pcapng(pcapng::Section),
}

impl Capture {
    /// Reads the beginning of a capture.
    pub fn open(reader: Box<dyn Read>) -> Result<Capture, Damage> {
        let mut source = Source::new(reader);
        let magic = source.up_to(4)?;
        if magic.is_empty() {
            return Err(Damage::at(0, "the capture is empty"));
        }
        let form = if magic == pcapng::SECTION_BEGIN {
            Form::Pcapng(pcapng::Section::begin(&mut source, 0)?)
        } else {
            Form::Pcap(pcap::Header::read(&mut source, &magic)?)
        };
        Ok(Capture { source, form, packets: 0 })
    }

    /// The next packet, or none at the end.
    pub fn next_packet(&mut self) -> Result<Option<Packet>, Damage> {
        let number = self.packets + 1;
        let packet = match &mut self.form {
            Form::Pcap(header) => header.next_packet(&mut self.source, number)?,
            Form::Pcapng(section) => section.next_packet(&mut self.source, number)?,
        };
        self.packets += u64::from(packet.is_some());
        Ok(packet)
    }

    /// How many packets were read so far.
    pub fn packets(&self) -> u64 {
        self.packets
    }

    /// How many bytes were read so far.
    pub fn offset(&self) -> u64 {
        self.source.offset()
    }
}
