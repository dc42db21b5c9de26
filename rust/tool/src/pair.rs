//! The command `pair`: what a drive sends held against what the console takes.

use crate::args::Pair;
use crate::console::Console;
use crate::explain::{Element, Mapped, Mapping};
use crate::failure::{Failure, Status};
use crate::fields;
use crate::rig::{Object, Problem, Rig};
use crate::words::{self, Style};
use loomfinch::PDOVersion;
use std::io::Write;

/// What a controlled node sends: the one mapping of its responses, and the record with its version.
const SENT: u16 = 0x1A00;
const SENT_RECORD: u16 = 0x1800;

/// One side: a node's rig, and its mapping at an index, explained.
pub struct Side {
    pub rig: Rig,
    pub index: u16,
    pub mapping: Mapping,
}

impl Side {
    /// The elements in use that have a field of whole bytes, of one at least.
    pub fn fields(&self) -> impl Iterator<Item = (&Element, &Mapped)> {
        let mapped = |element: &'_ Element| element.mapped.as_ref().map_or(0, Mapped::length) > 0;
        self.mapping
            .elements
            .iter()
            .filter(move |element| mapped(element))
            .filter_map(|element| Some((element, element.mapped.as_ref()?)))
    }

    /// A note for each element that is not in use; where none is, a fault says so of all.
    fn unused(&self, whose: &str) -> Vec<Finding> {
        let why = words::not_in_use(self.index, self.mapping.elements.len());
        let note = |element: &Element| {
            Finding::Note(format!("the {whose}'s element {} is {why}", element.number))
        };
        match self.mapping.is_off() {
            true => Vec::new(),
            false => self.mapping.unused.iter().map(note).collect(),
        }
    }
}

pub fn run(
    options: &Pair,
    drive: Rig,
    console: &mut Console,
    out: &mut dyn Write,
) -> Result<Status, Failure> {
    let node = match options.node {
        Some(node) => node,
        None => only_sender(console)
            .map_err(|text| Failure::Message(format!("{}: {}", options.console.shown, text)))?,
    };
    let drive =
        sent(drive).map_err(|problems| Failure::problems(&options.drive.shown, &problems))?;
    let names = if console.rig.nodes.contains_key(&node) { &console.rig } else { &drive.rig };
    let named = words::node(names, node);
    let channel = match console.channel_of(node) {
        Some(channel) => channel,
        None => {
            writeln!(
                out,
                "FAULT: no channel of the console takes {named}: nothing that it sends arrives"
            )?;
            return Ok(Status::Faults);
        }
    };
    let index = 0x1600 + u16::from(channel);
    let taken = Side { rig: console.rig.clone(), index, mapping: console.mapping(channel) };
    writeln!(
        out,
        "{}: {} of its {SENT:04X}h against {} of the console's {index:04X}h",
        named,
        drive.mapping.counted(),
        taken.mapping.counted_again()
    )?;
    let findings = findings(&drive, &taken, console.expected_version(channel), options.style);
    for finding in &findings {
        writeln!(out, "{}", finding.shown())?;
    }
    let fault = findings.iter().any(|finding| matches!(finding, Finding::Fault(_)));
    Ok(if fault { Status::Faults } else { Status::Clean })
}

fn findings(drive: &Side, taken: &Side, expected: u8, style: Style) -> Vec<Finding> {
    let mut findings = vec![version(&drive.rig, expected)];
    if drive.mapping.is_off() {
        let off = words::off(drive.index);
        findings.push(Finding::Fault(format!("the drive's mapping is {off}: it sends nothing")));
    } else {
        findings.extend(fields::compare(drive, taken, style));
    }
    findings.extend(drive.unused("drive"));
    findings.extend(taken.unused("console"));
    findings.extend(unsent(&drive.rig));
    findings
}

/// What is said of an element, or of the versions.
pub enum Finding {
    Whole(String),
    Note(String),
    Fault(String),
}

impl Finding {
    fn shown(&self) -> String {
        match self {
            Finding::Whole(text) => text.clone(),
            Finding::Note(text) => format!("note: {text}"),
            Finding::Fault(text) => format!("FAULT: {text}"),
        }
    }
}

/// The only node whose payloads a console takes.
fn only_sender(console: &Console) -> Result<u8, String> {
    let senders: Vec<u8> =
        (1..=u8::MAX).filter(|node| console.channel_of(*node).is_some()).collect();
    match senders.as_slice() {
        [] => Err("no channel names a sender: --node N says which node the drive is".to_string()),
        [node] => Ok(*node),
        several => {
            let nodes: Vec<String> = several.iter().map(u8::to_string).collect();
            Err(format!(
                "channels take nodes {}: --node N says which of them the drive is",
                nodes.join(", ")
            ))
        }
    }
}

/// What a drive sends. The library explains mappings of received payloads: the sent one is laid there, without its count, which is
/// judged and kept where it stands.
fn sent(rig: Rig) -> Result<Side, Vec<Problem>> {
    let in_use = Console::new(rig.clone())?.in_use(SENT);
    let mut turned = rig.clone();
    turned.objects.retain(|index, _| !(0x1600..=0x16FF).contains(index));
    match turned.objects.remove(&SENT) {
        Some(mapping) if mapping.is_list() => {
            turned.objects.insert(0x1600, Object { count: None, ..mapping })
        }
        Some(other) => {
            let text =
                format!("expected {SENT:04X}h, what the drive sends, to be an Array or a Record");
            return Err(vec![other.problem(text)]);
        }
        None => {
            let text = format!("expected an object {SENT:04X}h, what the drive sends; found none");
            return Err(vec![Problem::of_file(text)]);
        }
    };
    let elements = Console::new(turned)?.mapping(0).elements;
    Ok(Side { rig, index: SENT, mapping: Mapping::new(elements, in_use) })
}

/// Does the channel take the version that the drive sends?
fn version(drive: &Rig, expected: u8) -> Finding {
    let sent = drive.record_u8(SENT_RECORD, 2).unwrap_or(0);
    let (shown, takes) = (words::version(sent), words::versions_from(expected));
    if PDOVersion(expected).takes(PDOVersion(sent)) {
        return Finding::Whole(format!(
            "version: the drive sends {shown}, and the console takes {takes}"
        ));
    }
    Finding::Fault(format!(
        "version: the drive sends {shown}, and the console takes {takes}: every payload is refused"
    ))
}

/// Mappings of the drive beside the one that it sends.
fn unsent(drive: &Rig) -> Option<Finding> {
    let others = drive.objects.range(SENT + 1..=SENT + 0xFF);
    let others: Vec<String> = others.map(|(index, _)| format!("{index:04X}h")).collect();
    let others = Some(others).filter(|others| !others.is_empty())?;
    Some(Finding::Note(format!(
        "the drive's {} not looked at: a node that is polled sends {SENT:04X}h alone",
        match others.as_slice() {
            [one] => format!("{one} is"),
            several => format!("{} are", several.join(", ")),
        }
    )))
}
