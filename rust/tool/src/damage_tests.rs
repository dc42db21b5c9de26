//! Damaged rigs and captures end with a clear error or a right result: nothing here may panic.

use crate::capture::Capture;
use crate::check;
use crate::console::{Console, Consumed, Outcome, Received};
use crate::consume::give;
use crate::failure::Status;
use crate::frame::{self, Frame};
use crate::pair;
use crate::rig::{self, Rig};
use crate::words::Style;
use loomfinch::{Cause, Checked};
use std::collections::HashMap;
use std::io::Cursor;

#[path = "../tests/common/captures.rs"]
mod captures;

const RIGS: [&[u8]; 6] = [
    include_bytes!("../../../rigs/ramp.rig"),
    include_bytes!("../../../rigs/mended.rig"),
    include_bytes!("../../../rigs/faults.rig"),
    include_bytes!("../../../rigs/captions.rig"),
    include_bytes!("../../../rigs/limits.rig"),
    include_bytes!("../../../rigs/edition2.rig"),
];
const REHEARSAL: &[u8] = include_bytes!("../../../rigs/rehearsal.pcap");

/// Numbers that are the same in each run (Marsaglia's xorshift).
struct Chance(u64);

impl Chance {
    fn next(&mut self) -> u64 {
        self.0 ^= self.0 << 13;
        self.0 ^= self.0 >> 7;
        self.0 ^= self.0 << 17;
        self.0
    }

    fn below(&mut self, bound: usize) -> usize {
        (self.next() % bound.max(1) as u64) as usize
    }

    /// The bytes with one damage: cut, a flipped bit, another byte, a part left out or said twice.
    fn damaged(&mut self, bytes: &[u8]) -> Vec<u8> {
        let mut damaged = bytes.to_vec();
        let at = self.below(bytes.len());
        let until = (at + 1 + self.below(12)).min(bytes.len());
        match self.below(5) {
            0 => damaged.truncate(at),
            1 => damaged[at] ^= 1 << self.below(8),
            2 => damaged[at] = self.next() as u8,
            3 => drop(damaged.drain(at..until)),
            _ => drop(damaged.splice(at..at, bytes[at..until].iter().copied())),
        }
        damaged
    }
}

/// Checks and uses a rig if it is one; else its error has words, and a line of the file if any.
fn use_rig(text: &[u8]) -> bool {
    let lines = text.iter().filter(|byte| **byte == b'\n').count() + 1;
    let mut console = match rig::parse(text).and_then(Console::new) {
        Ok(console) => console,
        Err(problems) => {
            for problem in &problems {
                assert!(!problem.text.is_empty());
                assert!(
                    problem.line.map_or(true, |line| (1..=lines).contains(&line)),
                    "{}",
                    problem.text
                );
            }
            assert!(!problems.is_empty());
            return false;
        }
    };
    assert_explained(&mut console);
    let mut out = Vec::new();
    for json in [false, true] {
        let options = crate::args::Check { rig: named(), json, explain: true, strict: false };
        assert!(check::run(&options, &mut console, &mut out).is_ok());
    }
    assert!(!out.is_empty());
    for sender in [0, 5, 240] {
        let received = Received { sender, version: 0x12, ready: true, payload: &[0xFF; 50] };
        assert!(!give(&mut console, received, Style::default()).lines.is_empty());
    }
    true
}

fn named() -> crate::args::Named {
    crate::args::Named { path: "x".into(), shown: "x".to_string() }
}

/// The explained elements have just the faults that the check names.
fn assert_explained(console: &mut Console) {
    for (channel, checked) in console.check().unwrap() {
        let elements = console.mapping(channel).elements;
        let first = elements.iter().find(|element| element.fault.is_some());
        match checked {
            Checked::Element { element, fault } => {
                assert_eq!(
                    first.map(|found| (found.number, found.fault)),
                    Some((element, Some(fault)))
                );
            }
            Checked::Pass | Checked::TooFar => assert!(first.is_none() && !elements.is_empty()),
            Checked::NoList => assert!(elements.is_empty()),
            Checked::NoSender => {
                let sender = console.rig.named_sender(channel);
                assert_ne!(sender.and_then(|sender| console.channel_of(sender)), Some(channel));
            }
            other => panic!("{other}"),
        }
    }
}

#[test]
fn damaged_rigs() {
    let mut chance = Chance(0x1400_1600);
    let mut used = 0;
    for round in 0..600 {
        let damaged = chance.damaged(RIGS[round % RIGS.len()]);
        let twice = chance.damaged(&damaged);
        used += usize::from(use_rig(&damaged)) + usize::from(use_rig(&twice));
    }
    assert!((100..1100).contains(&used), "{used} of 1200 were still rigs");
}

#[test]
fn random_bytes_as_rigs() {
    let mut chance = Chance(0x6000);
    for _ in 0..2000 {
        let text: Vec<u8> = (0..chance.below(200)).map(|_| chance.next() as u8).collect();
        use_rig(&text);
        let signs = b"0123456789ABCDEFh/. \n\"[]=*#";
        let likely: Vec<u8> =
            text.iter().map(|byte| signs[usize::from(*byte) % signs.len()]).collect();
        use_rig(&likely);
    }
}

/// Reads a capture to its end or its damage, and gives what it holds to the console.
fn use_capture(console: &mut Console, bytes: &[u8]) -> usize {
    let size = bytes.len() as u64;
    let mut packets = 0;
    let mut capture = match Capture::open(Box::new(Cursor::new(bytes.to_vec()))) {
        Ok(capture) => capture,
        Err(damage) => {
            assert!(damage.offset <= size && !damage.text.is_empty());
            return packets;
        }
    };
    loop {
        match capture.next_packet() {
            Ok(Some(packet)) => {
                packets += 1;
                assert!(packets <= bytes.len() && packet.bytes.len() <= bytes.len());
                if let Frame::Poll(poll) = frame::dissect(packet.link, &packet.bytes) {
                    let (sender, version, ready, payload) =
                        (poll.sender, poll.version, poll.ready, poll.payload);
                    give(console, Received { sender, version, ready, payload }, Style::default());
                }
            }
            Ok(None) => return packets,
            Err(damage) => {
                assert!(damage.offset <= size && !damage.text.is_empty(), "{}", damage.text);
                return packets;
            }
        }
    }
}

fn newer_capture(big: bool) -> Vec<u8> {
    let frame = captures::response(5, 0x12, &[0x90, 0x5F, 1, 0, 0, 0]);
    [
        captures::section(big),
        captures::interface(big, 1, 0x86),
        captures::interface_behind(big, 1, 9, -3),
        captures::packet(big, false, 0, 7, &frame),
        captures::packet(big, true, 1, 8, &frame),
        captures::simple_packet(big, &frame),
    ]
    .concat()
}

#[test]
fn damaged_captures() {
    let rig: Rig = rig::parse(RIGS[0]).unwrap();
    let mut console = Console::new(rig).unwrap_or_else(|problems| panic!("{}", problems[0].text));
    let frames = [captures::response(5, 0x12, &[1, 2, 3, 4, 5, 6]), captures::request(1, 0, &[7])];
    let whole = [
        REHEARSAL.to_vec(),
        newer_capture(false),
        newer_capture(true),
        captures::pcap(true, true, &frames),
    ];
    assert_eq!(
        whole.iter().map(|bytes| use_capture(&mut console, bytes)).collect::<Vec<_>>(),
        [10, 3, 3, 2]
    );
    let mut chance = Chance(0x88AB);
    for bytes in &whole {
        for length in 0..bytes.len() {
            use_capture(&mut console, &bytes[..length]);
        }
        for _ in 0..1000 {
            let damaged = chance.damaged(bytes);
            use_capture(&mut console, &damaged);
        }
    }
}

/// The start of a rig of either edition whose channel has so many elements, of which some may not be in use.
fn channel_of(elements: usize, chance: &mut Chance) -> String {
    let (edition, count) = match chance.below(4) {
        0 => (2, format!(" count {}", chance.below(elements + 1))),
        other => (1 + other % 2, String::new()),
    };
    format!("edition {edition}\n1400h Record\n1 U8 = 5\n1600h Array{count}\n")
}

/// A rig of random objects, and a channel of random elements onto them and beside them.
fn random_rig(chance: &mut Chance) -> String {
    let elements = 1 + chance.below(8);
    let mut text = channel_of(elements, chance);
    for element in 1..=elements {
        let index = match chance.below(12) {
            0 => 0x1200,
            1 => 0x1600,
            2 => 0x1C81,
            _ => 0x6000 + chance.below(6),
        };
        let target = format!("{:04X}h/{}", index, chance.below(3));
        let unit = if chance.below(20) == 0 { "bits" } else { "bytes" };
        let (offset, length) = (chance.below(12), [1, 2, 4, 8, chance.below(12)][chance.below(5)]);
        text += &format!("{element} {target} at {offset} {unit} length {length}\n");
    }
    for index in 0..5 {
        let of = loomfinch::ValueType::from_number(chance.below(21) as u8).unwrap();
        let value = format!("{} room {}", of.name(), chance.below(10));
        match chance.below(2) {
            0 => text += &format!("{:04X}h Variable {}\n", 0x6000 + index, value),
            _ => text += &format!("{:04X}h Array\n1..2 {}\n", 0x6000 + index, value),
        }
    }
    text + "1C81h Variable OctetString = [00 * 32]\n"
}

/// What was told to be written is what the payload's fields say, and what the library reads.
fn assert_written(console: &mut Console, payload: &[u8]) -> usize {
    let consumed = console.consume(Received { sender: 5, version: 0, ready: true, payload });
    let steps = match consumed {
        Ok(Consumed::Taken { steps, .. }) => steps,
        _ => panic!("the payload was not taken"),
    };
    console.assert_up_to_date();
    let mut written = HashMap::new();
    for step in &steps {
        if let (Outcome::Written(change), Some(mapped)) = (&step.outcome, &step.element.mapped) {
            let field = &payload[mapped.field.clone().unwrap()];
            let kept = change.after.of.size().unwrap_or(field.len());
            written.insert((change.index, change.sub_index), (field[..kept].to_vec(), change));
        }
    }
    for ((index, _), (field, change)) in &written {
        assert_eq!(change.after.bytes, *field, "{index:04X}h");
    }
    written.len()
}

#[test]
fn what_is_told_was_written() {
    let mut chance = Chance(0x1C81);
    let mut written = 0;
    for _ in 0..500 {
        let text = random_rig(&mut chance);
        let rig = rig::parse(text.as_bytes())
            .unwrap_or_else(|problems| panic!("{}\n{}", problems[0].text, text));
        let mut console =
            Console::new(rig).unwrap_or_else(|problems| panic!("{}", problems[0].text));
        assert_explained(&mut console);
        for _ in 0..3 {
            let payload: Vec<u8> =
                (0..chance.below(24)).map(|_| chance.next() as u8 >> 1).collect();
            written += assert_written(&mut console, &payload);
        }
    }
    assert!(written > 300, "only {written} fields were written");
}

/// The first byte at which no UTF-8 goes on, by what std says: of a character that began well it counts the bytes, but a byte that
/// begins none it counts as well.
fn broken_at(field: &[u8]) -> Option<usize> {
    let error = std::str::from_utf8(field).err()?;
    Some(match (error.valid_up_to(), error.error_len()) {
        (_, None) => field.len(),
        (start, Some(_)) if !(0xC2..=0xF4).contains(&field[start]) => start,
        (start, Some(begun)) => start + begun,
    })
}

#[test]
fn what_stops_a_text_is_its_byte() {
    let rig = rig::parse(RIGS[3]).unwrap_or_else(|problems| panic!("{}", problems[0].text));
    let mut console = Console::new(rig).unwrap_or_else(|problems| panic!("{}", problems[0].text));
    let likely = [b'a', 0, 0x1B, 0x80, 0xA0, 0xC3, 0xA9, 0xE0, 0xE2, 0x82, 0xED, 0xF0, 0x90, 0xFF];
    let mut chance = Chance(0x6100);
    let mut broken = 0;
    for _ in 0..1500 {
        let mut payload = vec![b'a'; 34];
        let start = 10 + chance.below(20);
        payload[start..].fill_with(|| likely[chance.below(likely.len())]);
        let field = &payload[10..30];
        let received = Received { sender: 12, version: 0x10, ready: true, payload: &payload };
        let told = give(&mut console, received, Style::default());
        let at = broken_at(field);
        let cause = told.troubles.iter().find_map(|found| found.cause);
        assert_eq!(cause, at.map(|at| Cause::Text { at: at as u16 }), "{field:02X?}");
        let named = at.map(|at| match field.get(at) {
            Some(byte) => format!("byte {at} of the field, {byte:02X}h, "),
            None => format!("the field ends at byte {at}, "),
        });
        let text = told.troubles.first().map_or("", |found| found.text.as_str());
        assert!(named.map_or(text.is_empty(), |named| text.contains(&named)), "{text}");
        assert!(!text.contains('\u{1B}'), "{text}");
        broken += usize::from(at.is_some());
    }
    assert!((500..1500).contains(&broken), "{broken} of 1500 were no text");
}

/// What is said of a drive that sends what a text says as received, and of a console.
fn pair_says(drive: &str, console: &mut Console) -> (Status, String) {
    let drive = drive.replace("1400h Record", "1800h Record").replace("1600h Array", "1A00h Array");
    let drive =
        rig::parse(drive.as_bytes()).unwrap_or_else(|problems| panic!("{}", problems[0].text));
    let style = Style::default();
    let options = crate::args::Pair { drive: named(), console: named(), node: Some(5), style };
    let mut out = Vec::new();
    let status = pair::run(&options, drive, console, &mut out);
    let status = status.unwrap_or_else(|_| panic!("{}", String::from_utf8_lossy(&out)));
    (status, String::from_utf8(out).unwrap())
}

/// A rig whose fields fit their targets, one behind the other: with every second call one of them is moved, or longer or shorter.
fn fitting_rig(chance: &mut Chance, types: &[loomfinch::ValueType]) -> String {
    let (wrong, moved) = (chance.below(2 * types.len()), chance.below(2));
    let (mut mapping, mut objects) = (String::new(), String::new());
    let mut end = 0;
    for (k, of) in types.iter().enumerate() {
        let (mut offset, mut length) = (end, of.size().unwrap_or(4));
        end += length;
        match (wrong == k, moved) {
            (true, 0) => offset = chance.below(end),
            (true, _) => length = chance.below(2 * length + 1),
            (false, _) => (),
        }
        mapping += &format!("{} {:04X}h at {offset} length {length}\n", k + 1, 0x6000 + k);
        objects += &format!("{:04X}h Variable {} room 4\n", 0x6000 + k, of.name());
    }
    channel_of(types.len(), chance) + &mapping + &objects
}

#[test]
fn what_pair_passes_arrives_whole() {
    let mut chance = Chance(0x1A00);
    let mut passed = 0;
    for round in 0..400 {
        let types: Vec<loomfinch::ValueType> = (0..1 + chance.below(4))
            .map(|_| loomfinch::ValueType::from_number(chance.below(21) as u8).unwrap())
            .collect();
        let [drive, text] = match round % 4 {
            0 => [random_rig(&mut chance), random_rig(&mut chance)],
            _ => [fitting_rig(&mut chance, &types), fitting_rig(&mut chance, &types)],
        };
        let rig =
            rig::parse(text.as_bytes()).unwrap_or_else(|problems| panic!("{}", problems[0].text));
        let mut console =
            Console::new(rig).unwrap_or_else(|problems| panic!("{}", problems[0].text));
        let (status, said) = pair_says(&drive, &mut console);
        if status != Status::Clean {
            assert!(said.contains("FAULT: "), "{said}");
            continue;
        }
        passed += 1;
        let elements = console.mapping(0).elements;
        let ends = elements.iter().filter_map(|element| Some(element.mapped.as_ref()?.end));
        let payload: Vec<u8> =
            (0..ends.max().unwrap_or(0)).map(|_| chance.next() as u8 >> 1).collect();
        let received = Received { sender: 5, version: 0, ready: true, payload: &payload };
        let told = give(&mut console, received, Style::default());
        let troubles: Vec<&str> = told.troubles.iter().map(|found| found.text.as_str()).collect();
        assert!(troubles.is_empty(), "{troubles:?}\n{said}\n{drive}\n{text}");
        assert_eq!(told.written, elements.len() as u64, "{said}\n{text}");
    }
    assert!((50..300).contains(&passed), "{passed} of 400 passed");
}
