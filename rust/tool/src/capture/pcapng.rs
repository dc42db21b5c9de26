//! The newer capture form: sections of blocks, each block with its length before and behind it.

use super::{Damage, Link, Order, Packet, Source, MOST_PACKET};

/// The first bytes of a section's header, the same in either byte order.
pub const SECTION_BEGIN: [u8; 4] = [0x0A, 0x0D, 0x0D, 0x0A];

const SECTION: u32 = 0x0A0D_0D0A;
const INTERFACE: u32 = 1;
const OBSOLETE_PACKET: u32 = 2;
const SIMPLE_PACKET: u32 = 3;
const ENHANCED_PACKET: u32 = 6;

/// A section: its byte order, and what its blocks said so far.
pub struct Section {
    order: Order,
    interfaces: Vec<Interface>,
}

struct Interface {
    link: Link,
    /// The most bytes kept of a packet; 0 is no bound.
    kept: usize,
    ticks: Ticks,
    /// Seconds to add to its times.
    offset: i128,
}

/// How long a tick of an interface's clock is.
#[derive(Clone, Copy)]
enum Ticks {
    /// So many in a second.
    PerSecond(i128),
    /// 2 to this power in a second.
    Binary(u32),
}

impl Ticks {
    fn nanoseconds(self, ticks: u64) -> i128 {
        let scaled = i128::from(ticks) * 1_000_000_000;
        match self {
            Ticks::PerSecond(rate) => scaled / rate,
            Ticks::Binary(power) => scaled >> power,
        }
    }
}

/// A block's type, its body, and where it begins.
struct Block {
    kind: u32,
    body: Vec<u8>,
    start: u64,
}

impl Block {
    /// The part of the body that holds a packet's bytes.
    fn part(&self, from: usize, count: usize) -> Result<Vec<u8>, Damage> {
        if count > self.body.len() - from {
            let text = format!(
                "a packet says it has {} bytes; its block has {} for it",
                count,
                self.body.len() - from
            );
            return Err(Damage::at(self.start, text));
        }
        Ok(self.body[from..from + count].to_vec())
    }

    fn at_least(&self, count: usize) -> Result<(), Damage> {
        if self.body.len() < count {
            let text = format!(
                "a block of type {} needs a body of {} bytes; it has {}",
                self.kind,
                count,
                self.body.len()
            );
            return Err(Damage::at(self.start, text));
        }
        Ok(())
    }
}

impl Section {
    /// The section's header behind its first four bytes, which began at `start`.
    pub fn begin(source: &mut Source, start: u64) -> Result<Section, Damage> {
        let what = "a section's header";
        let head = source.exactly(8, what, start)?;
        let order = match head[4..] {
            [0x4D, 0x3C, 0x2B, 0x1A] => Order::Little,
            [0x1A, 0x2B, 0x3C, 0x4D] => Order::Big,
            _ => {
                return Err(Damage::at(
                    start + 8,
                    "expected the byte-order mark of a pcapng section, 1A2B3C4Dh",
                ))
            }
        };
        let length = block_length(order.u32(&head, 0), start)?;
        if length < 28 {
            return Err(Damage::at(
                start + 4,
                format!("a section's header has 28 bytes or more; this one says {length}"),
            ));
        }
        let version = source.exactly(4, what, start)?;
        let major = order.u16(&version, 0);
        if major != 1 {
            return Err(Damage::at(
                start + 12,
                format!("expected version 1 of the pcapng form, found {major}"),
            ));
        }
        source.pass_over(length - 20, what, start)?;
        trailer(source, order, length, start)?;
        Ok(Section { order, interfaces: Vec::new() })
    }

    pub fn next_packet(
        &mut self,
        source: &mut Source,
        number: u64,
    ) -> Result<Option<Packet>, Damage> {
        while let Some(block) = self.next_block(source)? {
            match block.kind {
                INTERFACE => self.interface(&block)?,
                ENHANCED_PACKET => return self.enhanced(&block, number, false).map(Some),
                OBSOLETE_PACKET => return self.enhanced(&block, number, true).map(Some),
                SIMPLE_PACKET => return self.simple(&block, number).map(Some),
                _ => (),
            }
        }
        Ok(None)
    }

    /// The next block that is no section's header; blocks of other kinds come without their body.
    fn next_block(&mut self, source: &mut Source) -> Result<Option<Block>, Damage> {
        loop {
            let start = source.offset();
            let kind = source.up_to(4)?;
            if kind.is_empty() {
                return Ok(None);
            }
            if kind.len() < 4 {
                return Err(Damage::at(
                    source.offset(),
                    format!("the file ends inside the block that begins at byte {start}"),
                ));
            }
            let kind = self.order.u32(&kind, 0);
            if kind != SECTION {
                return self.block(source, kind, start).map(Some);
            }
            *self = Section::begin(source, start)?;
        }
    }

    fn block(&self, source: &mut Source, kind: u32, start: u64) -> Result<Block, Damage> {
        let length = source.exactly(4, "the block", start)?;
        let length = block_length(self.order.u32(&length, 0), start)?;
        let inside = length - 12;
        let known = matches!(kind, INTERFACE | OBSOLETE_PACKET | SIMPLE_PACKET | ENHANCED_PACKET);
        let body = if known {
            if inside > 2 * MOST_PACKET {
                return Err(Damage::at(
                    start + 4,
                    format!("a block says it has {length} bytes, more than any packet needs"),
                ));
            }
            source.exactly(inside, "the block", start)?
        } else {
            source.pass_over(inside, "the block", start)?;
            Vec::new()
        };
        trailer(source, self.order, length, start)?;
        Ok(Block { kind, body, start })
    }

    fn interface(&mut self, block: &Block) -> Result<(), Damage> {
        const RESOLUTION: u16 = 9;
        const OFFSET: u16 = 14;
        block.at_least(8)?;
        let options = &block.body[8..];
        self.interfaces.push(Interface {
            link: self.order.u16(&block.body, 0).into(),
            kept: self.order.u32(&block.body, 4) as usize,
            ticks: self
                .option(options, RESOLUTION, 1)
                .map_or(Ticks::PerSecond(1_000_000), |power| resolution(power[0])),
            offset: self
                .option(options, OFFSET, 8)
                .map_or(0, |seconds| self.order.i64(seconds, 0).into()),
        });
        Ok(())
    }

    /// The value of an option that has so many bytes.
    fn option<'a>(&self, options: &'a [u8], wanted: u16, count: usize) -> Option<&'a [u8]> {
        let mut rest = options;
        while rest.len() >= 4 {
            let (code, length) = (self.order.u16(rest, 0), usize::from(self.order.u16(rest, 2)));
            let value = rest.get(4..4 + length)?;
            if code == wanted && length == count {
                return Some(value);
            }
            if code == 0 {
                return None;
            }
            rest = rest.get(4 + (length + 3) / 4 * 4..)?;
        }
        None
    }

    /// An enhanced packet block, or the packet block that it replaced: only the first word differs.
    fn enhanced(&self, block: &Block, number: u64, obsolete: bool) -> Result<Packet, Damage> {
        block.at_least(20)?;
        let place = if obsolete {
            usize::from(self.order.u16(&block.body, 0))
        } else {
            self.order.u32(&block.body, 0) as usize
        };
        let interface = self.interface_at(place, block)?;
        let ticks = u64::from(self.order.u32(&block.body, 4)) << 32
            | u64::from(self.order.u32(&block.body, 8));
        let captured = self.order.u32(&block.body, 12) as usize;
        let length = self.order.u32(&block.body, 16) as usize;
        let bytes = block.part(20, captured)?;
        let time = interface.offset * 1_000_000_000 + interface.ticks.nanoseconds(ticks);
        Ok(Packet { number, time: Some(time), bytes, length, link: interface.link })
    }

    fn simple(&self, block: &Block, number: u64) -> Result<Packet, Damage> {
        block.at_least(4)?;
        let interface = self.interface_at(0, block)?;
        let length = self.order.u32(&block.body, 0) as usize;
        let bound = if interface.kept == 0 { length } else { interface.kept };
        let bytes = block.part(4, length.min(bound))?;
        Ok(Packet { number, time: None, bytes, length, link: interface.link })
    }

    fn interface_at(&self, place: usize, block: &Block) -> Result<&Interface, Damage> {
        self.interfaces.get(place).ok_or_else(|| {
            let text = format!(
                "a packet names interface {}; the section has described {} so far",
                place,
                self.interfaces.len()
            );
            Damage::at(block.start, text)
        })
    }
}

fn resolution(power: u8) -> Ticks {
    match power {
        0..=38 => Ticks::PerSecond(10i128.pow(u32::from(power))),
        0x80..=0xFF => Ticks::Binary(u32::from(power & 0x7F)),
        _ => Ticks::PerSecond(i128::MAX),
    }
}

fn block_length(length: u32, start: u64) -> Result<usize, Damage> {
    if length < 12 || length % 4 != 0 {
        let text =
            format!("a block's length is a multiple of 4 from 12 on; the block here says {length}");
        return Err(Damage::at(start + 4, text));
    }
    Ok(length as usize)
}

/// The length stands behind the block again.
fn trailer(source: &mut Source, order: Order, length: usize, start: u64) -> Result<(), Damage> {
    let at = source.offset();
    let again = source.exactly(4, "the block", start)?;
    let again = order.u32(&again, 0) as usize;
    if again != length {
        let text = format!(
            "the block that begins at byte {start} has length {length} before it and {again} behind it"
        );
        return Err(Damage::at(at, text));
    }
    Ok(())
}
