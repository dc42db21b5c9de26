//! Captures made for tests.

/// A number of four bytes in a byte order.
fn four(big: bool, number: u32) -> [u8; 4] {
    if big {
        number.to_be_bytes()
    } else {
        number.to_le_bytes()
    }
}

fn two(big: bool, number: u16) -> [u8; 2] {
    if big {
        number.to_be_bytes()
    } else {
        number.to_le_bytes()
    }
}

/// The Ethernet frame of a poll response, ready.
pub fn response(node: u8, version: u8, payload: &[u8]) -> Vec<u8> {
    poll([4, 255, node], version, payload)
}

/// The Ethernet frame of a poll request to a node, ready.
pub fn request(to: u8, version: u8, payload: &[u8]) -> Vec<u8> {
    poll([3, to, 240], version, payload)
}

fn poll(start: [u8; 3], version: u8, payload: &[u8]) -> Vec<u8> {
    let mut frame = vec![0; 12];
    frame.extend([0x88, 0xAB]);
    frame.extend(start);
    frame.extend([0xFD, 1, 0, version, 0]);
    frame.extend((payload.len() as u16).to_le_bytes());
    frame.extend(payload);
    frame
}

/// A classic capture of an Ethernet, a frame each second and so many units.
pub fn pcap(big: bool, nanoseconds: bool, frames: &[Vec<u8>]) -> Vec<u8> {
    pcap_of(1, big, nanoseconds, frames)
}

/// A classic capture of a link type.
pub fn pcap_of(link: u32, big: bool, nanoseconds: bool, frames: &[Vec<u8>]) -> Vec<u8> {
    let magic = if nanoseconds { 0xA1B2_3C4D } else { 0xA1B2_C3D4 };
    let mut file = four(big, magic).to_vec();
    file.extend(two(big, 2));
    file.extend(two(big, 4));
    for number in [0, 0, 65_535, link] {
        file.extend(four(big, number));
    }
    for (second, frame) in (0..).zip(frames) {
        for number in [second, 500_000 * second, frame.len() as u32, frame.len() as u32] {
            file.extend(four(big, number));
        }
        file.extend(frame);
    }
    file
}

/// A block of a pcapng capture.
pub fn block(big: bool, kind: u32, body: &[u8]) -> Vec<u8> {
    let padded = (body.len() + 3) / 4 * 4;
    let length = four(big, 12 + padded as u32);
    let mut block = four(big, kind).to_vec();
    block.extend(length);
    block.extend(body);
    block.resize(8 + padded, 0);
    block.extend(length);
    block
}

pub fn section(big: bool) -> Vec<u8> {
    let mut body = four(big, 0x1A2B_3C4D).to_vec();
    body.extend(two(big, 1));
    body.extend(two(big, 0));
    body.extend([0xFF; 8]);
    block(big, 0x0A0D_0D0A, &body)
}

/// An interface of a link type, whose clock ticks 10 to a power times a second.
pub fn interface(big: bool, link: u16, power: u8) -> Vec<u8> {
    interface_with(big, link, power, &[])
}

/// The same, with so many seconds to add to its times.
pub fn interface_behind(big: bool, link: u16, power: u8, seconds: i64) -> Vec<u8> {
    let mut option = [two(big, 14), two(big, 8)].concat();
    option.extend(if big { seconds.to_be_bytes() } else { seconds.to_le_bytes() });
    interface_with(big, link, power, &option)
}

fn interface_with(big: bool, link: u16, power: u8, option: &[u8]) -> Vec<u8> {
    let mut body = two(big, link).to_vec();
    body.extend([0, 0]);
    body.extend(four(big, 0));
    body.extend(two(big, 9));
    body.extend(two(big, 1));
    body.extend([power, 0, 0, 0]);
    body.extend(option);
    body.extend([0; 4]);
    block(big, 1, &body)
}

/// An enhanced packet block, or the one that it replaced.
pub fn packet(big: bool, obsolete: bool, interface: u16, ticks: u32, frame: &[u8]) -> Vec<u8> {
    let mut body = if obsolete {
        [two(big, interface), [0, 0]].concat()
    } else {
        four(big, interface.into()).to_vec()
    };
    for number in [0, ticks, frame.len() as u32, frame.len() as u32] {
        body.extend(four(big, number));
    }
    body.extend(frame);
    block(big, if obsolete { 2 } else { 6 }, &body)
}

pub fn simple_packet(big: bool, frame: &[u8]) -> Vec<u8> {
    let mut body = four(big, frame.len() as u32).to_vec();
    body.extend(frame);
    block(big, 3, &body)
}
