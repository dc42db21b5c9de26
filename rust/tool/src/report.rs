//! What a payload changed, told line by line.

use crate::console::{Change, Consumed, Outcome, Received, Step};
use crate::explain::{Element, Mapped};
use crate::faults::last_bytes;
use crate::reasons;
use crate::rig::{Rig, Value};
use crate::trouble::{Incident, Trouble};
use crate::words::{self, named_place, Style};
use loomfinch::{Cause, Target, ValueType};
use std::cmp::Ordering;

/// A payload's story, and what of it a table counts.
#[derive(Default)]
pub struct Told {
    pub lines: Vec<Line>,
    pub changes: Vec<Changed>,
    /// The places that the payload's channel maps.
    pub mapped: Vec<(u16, u8)>,
    pub written: u64,
    /// Did a channel that has a mapping look at the payload?
    pub taken: bool,
    /// What went wrong, in order.
    pub troubles: Vec<Incident>,
    /// The values that lie outside their range, in words, in order.
    pub passed: Vec<String>,
}

/// A line of the story.
pub struct Line {
    /// The places that it is about: none where it is about the payload as a whole, and of a stop also those behind it.
    pub places: Vec<(u16, u8)>,
    /// Did a value change?
    pub changed: bool,
    /// Is it about nothing that could have changed: a value written that was there before, or an element that is not in use?
    pub same: bool,
    pub text: String,
}

/// A value as it was and is, in words.
pub struct Changed {
    pub index: u16,
    pub sub_index: u8,
    pub before: String,
    pub after: String,
}

impl Told {
    /// The story of a frame that could not be consumed.
    pub fn damaged(why: String) -> Told {
        let mut told = Told::default();
        told.trouble(Vec::new(), Incident::of_payload(Trouble::Damaged, why));
        told
    }

    /// The story of a payload that was refused as a whole.
    pub fn refused(why: String) -> Told {
        let mut told = Told { taken: true, ..Told::default() };
        told.trouble(Vec::new(), Incident::of_payload(Trouble::Refused, why));
        told
    }

    fn line(&mut self, places: Vec<(u16, u8)>, text: String) {
        self.lines.push(Line { places, changed: false, same: false, text });
    }

    fn trouble(&mut self, places: Vec<(u16, u8)>, incident: Incident) {
        self.line(places, incident.text.clone());
        self.troubles.push(incident);
    }
}

pub fn tell(rig: &Rig, received: &Received, consumed: &Consumed, style: Style) -> Told {
    let taken = match consumed {
        Consumed::NotReady | Consumed::NoChannel => false,
        Consumed::WrongVersion { .. } => true,
        Consumed::Taken { steps, .. } => !steps.is_empty(),
    };
    let told = Told { taken, ..Told::default() };
    let mut teller = Teller { rig, received, style, told };
    match consumed {
        Consumed::NotReady => teller.nothing("not ready".to_string()),
        Consumed::NoChannel => {
            let node = words::node(rig, received.sender);
            teller.nothing(format!("no channel of the rig takes {node}"));
        }
        Consumed::WrongVersion { channel, expected, mapping, noted } => {
            teller.told.mapped = mapping.all().filter_map(place_of).collect();
            teller.wrong_version(*channel, *expected);
            teller.noted(noted.as_ref());
        }
        Consumed::Taken { channel, steps, unused, noted } => {
            let elements = steps.iter().map(|step| &step.element).chain(unused);
            teller.told.mapped = elements.filter_map(place_of).collect();
            teller.taken(*channel, steps, unused);
            teller.noted(noted.as_ref());
        }
    }
    teller.told
}

struct Teller<'a> {
    rig: &'a Rig,
    received: &'a Received<'a>,
    style: Style,
    told: Told,
}

impl Teller<'_> {
    fn nothing(&mut self, why: String) {
        self.told.line(Vec::new(), format!("{why}: nothing happens"));
    }

    fn wrong_version(&mut self, channel: u8, expected: u8) {
        let why = format!(
            "refused: the payload has version {}, channel {} expects {}",
            words::version(self.received.version),
            channel,
            words::versions_from(expected)
        );
        self.told.trouble(Vec::new(), Incident::of_payload(Trouble::Version, why));
    }

    /// Tells what became of each element of a channel that took the payload.
    fn taken(&mut self, channel: u8, steps: &[Step], unused: &[Element]) {
        let index = 0x1600 + u16::from(channel);
        match (steps, unused) {
            ([], []) => self.nothing(format!("channel {channel} has no mapping")),
            ([], _) => self.nothing(format!("channel {channel} is {}", words::off(index))),
            _ => {
                for (k, step) in steps.iter().enumerate() {
                    self.step(step, &steps[k + 1..]);
                }
                for element in unused {
                    self.unused(element, &words::not_in_use(index, steps.len()));
                }
            }
        }
    }

    fn unused(&mut self, element: &Element, why: &str) {
        let text = format!("element {} ({}) is {why}", element.number, self.at(element));
        let places = place_of(element).into_iter().collect();
        self.told.lines.push(Line { places, changed: false, same: true, text });
    }

    /// The place that an element maps onto, or the type of one that is no mapping word.
    fn at(&self, element: &Element) -> String {
        match &element.mapped {
            Some(mapped) => named_place(self.rig, mapped.entry.index, mapped.entry.sub_index),
            None => words::type_with_article(element.element_type),
        }
    }

    fn step(&mut self, step: &Step, later: &[Step]) {
        let (number, at) = (step.element.number, self.at(&step.element));
        let element = format!("element {number} ({at})");
        let mut places: Vec<(u16, u8)> = place_of(&step.element).into_iter().collect();
        match &step.outcome {
            Outcome::Written(change) => {
                self.told.written += 1;
                self.written(&at, change, later);
                self.cut(&at, step, change);
                self.passed(change);
            }
            Outcome::PassedOver => {
                let why = reasons::passed_over(&step.element);
                let text = format!("{element} is passed over: {why}");
                let incident = Incident::of_element(Trouble::PassedOver, number, text);
                self.told.trouble(places, incident);
            }
            Outcome::HandedOn => self.told.line(places, format!("{element} is handed on to SDO")),
            Outcome::Refused(event) => {
                let why = reasons::refused(*event, &step.element);
                let text = format!("{element} is not written: {why}");
                self.told.trouble(places, Incident::of_element(Trouble::Refused, number, text));
            }
            Outcome::Stopped(cause) => {
                let why = reasons::stopped(*cause, &step.element, self.received);
                places.extend(later.iter().filter_map(|step| place_of(&step.element)));
                let text = format!("stopped at {element}: {why}");
                let incident = Incident::of_element(stop(*cause), number, text);
                self.told.trouble(places, Incident { cause: Some(*cause), ..incident });
            }
            Outcome::NotReached => self.told.line(places, format!("{element} is not reached")),
        }
    }

    fn written(&mut self, at: &str, change: &Change, later: &[Step]) {
        let (index, sub_index) = (change.index, change.sub_index);
        let again = later.iter().find(|step| match &step.outcome {
            Outcome::Written(other) => (other.index, other.sub_index) == (index, sub_index),
            _ => false,
        });
        let again = again.map_or(String::new(), |step| {
            format!(" (element {} writes it again)", step.element.number)
        });
        let before = self.shown(index, &change.before);
        let after = self.shown(index, &change.after);
        let same = change.before.bytes == change.after.bytes;
        let text = match same {
            true => format!("{at}: {after}, as before{again}"),
            false => format!("{at}: {before} -> {after}{again}"),
        };
        let places = vec![(index, sub_index)];
        self.told.lines.push(Line { places, changed: !same, same, text });
        if !same {
            self.told.changes.push(Changed { index, sub_index, before, after });
        }
    }

    /// A value; a mapping's element as the mapping that it says.
    fn shown(&self, index: u16, value: &Value) -> String {
        let mapping = (0x1600..=0x16FF).contains(&index) && value.of == ValueType::Unsigned64;
        match value.unsigned() {
            Some(word) if mapping => words::mapping(word),
            _ => words::value(value, self.style),
        }
    }

    /// Tells of a field of which only the first bytes are kept.
    fn cut(&mut self, at: &str, step: &Step, change: &Change) {
        let (range, of, size) = match &step.element.mapped {
            Some(Mapped {
                field: Some(range), target: Target::Fixed { value_type, size }, ..
            }) => (range.clone(), *value_type, *size),
            _ => return,
        };
        let field = match self.received.payload.get(range) {
            Some(field) if field.len() > size => field,
            _ => return,
        };
        let (kept, lost) = field.split_at(size);
        if continues(of, kept, lost) {
            return;
        }
        let meant = match is_integer(of) && field.len() <= 8 {
            true => {
                format!(", {}", words::as_type(of, field, change.after.milliseconds, self.style))
            }
            false => String::new(),
        };
        let why = format!(
            "element {}'s field is {}{}; {}, {}, {} lost",
            step.element.number,
            words::hex(field),
            meant,
            last_bytes(lost.len()),
            words::hex(lost),
            if lost.len() == 1 { "is" } else { "are" }
        );
        self.told.line(vec![(change.index, change.sub_index)], format!("  CUT: {why}"));
        let text = format!("{at}: {why}");
        self.told.troubles.push(Incident::of_element(Trouble::Cut, step.element.number, text));
    }

    /// Tells of a value that a write of it would be refused for.
    fn passed(&mut self, change: &Change) {
        let (index, value) = (change.index, &change.after);
        let range = self.rig.objects.get(&index).and_then(|object| object.range);
        let (range, number) = match range.zip(value.integer()) {
            Some(found) => found,
            None => return,
        };
        let (side, end) = match range.side(value) {
            Ordering::Less => ("below", range.least),
            Ordering::Greater => ("above", range.greatest),
            Ordering::Equal => return,
        };
        let milliseconds = words::is_time(value, self.style);
        let text = format!(
            "{} is {side} the range of {}, {}: consuming ignores ranges, the drive is the master",
            words::amount(number, milliseconds),
            words::place(index, change.sub_index),
            words::amount(end, milliseconds)
        );
        let (places, same) = (vec![(index, change.sub_index)], change.before.bytes == value.bytes);
        let line = format!("  note: {text}");
        self.told.lines.push(Line { places, changed: false, same, text: line });
        self.told.passed.push(text);
    }

    /// Tells which nodes an error object has noted newly.
    fn noted(&mut self, noted: Option<&Change>) {
        let change = match noted {
            Some(change) => change,
            None => return,
        };
        let at = named_place(self.rig, change.index, change.sub_index);
        let bytes = change.before.bytes.iter().zip(&change.after.bytes);
        for (k, (before, after)) in bytes.enumerate().filter(|(_, pair)| pair.0 != pair.1) {
            let node = 8 * k + (before ^ after).trailing_zeros() as usize + 1;
            let text = format!(
                "{at}: the bit of node {node} is set (byte {k}: {before:02X} -> {after:02X})"
            );
            let places = vec![(change.index, change.sub_index)];
            self.told.lines.push(Line { places, changed: true, same: false, text });
        }
        let (index, sub_index) = (change.index, change.sub_index);
        let before = self.shown(index, &change.before);
        let after = self.shown(index, &change.after);
        self.told.changes.push(Changed { index, sub_index, before, after });
    }
}

/// The place that an element maps onto.
fn place_of(element: &Element) -> Option<(u16, u8)> {
    element.mapped.as_ref().map(|mapped| (mapped.entry.index, mapped.entry.sub_index))
}

/// The trouble of a payload that stopped.
fn stop(cause: Cause) -> Trouble {
    match cause {
        Cause::Text { .. } | Cause::Odd => Trouble::NoText,
        _ => Trouble::Short,
    }
}

fn is_integer(of: ValueType) -> bool {
    of.number() <= ValueType::Unsigned64.number()
}

/// Do the lost bytes only continue the number that was kept?
fn continues(of: ValueType, kept: &[u8], lost: &[u8]) -> bool {
    let signed =
        (ValueType::Integer8.number()..=ValueType::Integer64.number()).contains(&of.number());
    let negative = signed && kept.last().map_or(false, |byte| byte & 0x80 != 0);
    let fill = if negative { 0xFF } else { 0 };
    is_integer(of) && lost.iter().all(|byte| *byte == fill)
}
