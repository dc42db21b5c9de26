//! The classic capture form: a header, then packets each with a header of their own.

use super::{Damage, Link, Order, Packet, Source, MOST_PACKET};

pub struct Header {
    order: Order,
    /// Nanoseconds in the unit of the fractions of a second.
    unit: i128,
    link: Link,
}

impl Header {
    /// The header behind its first four bytes.
    pub fn read(source: &mut Source, magic: &[u8]) -> Result<Header, Damage> {
        let (order, unit) = match *magic {
            [0xD4, 0xC3, 0xB2, 0xA1] => (Order::Little, 1000),
            [0xA1, 0xB2, 0xC3, 0xD4] => (Order::Big, 1000),
            [0x4D, 0x3C, 0xB2, 0xA1] => (Order::Little, 1),
            [0xA1, 0xB2, 0x3C, 0x4D] => (Order::Big, 1),
            [0x1F, 0x8B, ..] => {
                return Err(Damage::at(0, "the file is compressed (gzip): unpack it first"))
            }
            _ => return Err(Damage::at(0, "the file is neither a pcap nor a pcapng capture")),
        };
        let rest = source.exactly(20, "the capture's header", 0)?;
        let major = order.u16(&rest, 0);
        if major != 2 {
            return Err(Damage::at(
                4,
                format!("expected version 2 of the pcap form, found {major}"),
            ));
        }
        // The high half of the link type says how long the frames' check sequence is.
        let link = Link::from(order.u32(&rest, 16) as u16);
        Ok(Header { order, unit, link })
    }

    pub fn next_packet(&self, source: &mut Source, number: u64) -> Result<Option<Packet>, Damage> {
        let start = source.offset();
        let head = source.up_to(16)?;
        if head.is_empty() {
            return Ok(None);
        }
        if head.len() < 16 {
            let text = format!(
                "the file ends inside the header of packet {number} that begins at byte {start}"
            );
            return Err(Damage::at(source.offset(), text));
        }
        let captured = self.order.u32(&head, 8) as usize;
        if captured > MOST_PACKET {
            let text = format!(
                "packet {number} says it has {captured} bytes; no packet has more than {MOST_PACKET}"
            );
            return Err(Damage::at(start + 8, text));
        }
        let seconds = i128::from(self.order.u32(&head, 0));
        let fraction = i128::from(self.order.u32(&head, 4));
        let bytes = source.exactly(captured, &format!("packet {number}"), start)?;
        Ok(Some(Packet {
            number,
            time: Some(seconds * 1_000_000_000 + fraction * self.unit),
            bytes,
            length: self.order.u32(&head, 12) as usize,
            link: self.link,
        }))
    }
}
