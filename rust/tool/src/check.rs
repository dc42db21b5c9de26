//! The command `check`: what is wrong with a rig's channels.

use crate::args::Check;
use crate::console::Console;
use crate::drawing;
use crate::explain::{first_stop, Element, Mapped, Mapping};
use crate::failure::{Failure, Status};
use crate::faults;
use crate::json::Json;
use crate::notes::{self, Note, Receiving};
use crate::rig::Rig;
use crate::words;
use loomfinch::{Checked, Target};
use std::io::Write;

/// A channel with what the check says of it.
struct Channel {
    number: u8,
    checked: Checked,
    mapping: Mapping,
    sentence: String,
}

pub fn run(options: &Check, console: &mut Console, out: &mut dyn Write) -> Result<Status, Failure> {
    let answers = console.check().map_err(|refusal| Failure::Message(refusal.to_string()))?;
    let channels: Vec<Channel> = answers
        .into_iter()
        .map(|(number, checked)| {
            let mapping = console.mapping(number);
            let sentence = faults::sentence(console, number, checked, &mapping.elements);
            Channel { number, checked, mapping, sentence }
        })
        .collect();
    let notes = all_notes(&console.rig, &channels);
    if options.json {
        let file = options.rig.path.to_string_lossy();
        writeln!(out, "{}", json(&file, &console.rig, &channels, &notes, options.explain))?;
    } else {
        text(&console.rig, &channels, options.explain, out)?;
        for note in &notes {
            writeln!(out, "note: {}", note.text)?;
        }
    }
    let passed = channels.iter().all(|channel| channel.checked.is_pass());
    let clean = passed && (notes.is_empty() || !options.strict);
    Ok(if clean { Status::Clean } else { Status::Faults })
}

fn text(
    rig: &Rig,
    channels: &[Channel],
    explain: bool,
    out: &mut dyn Write,
) -> Result<(), Failure> {
    for channel in channels {
        let verdict = if channel.checked.is_pass() {
            "pass".to_string()
        } else {
            format!("FAULT: {}", channel.sentence)
        };
        writeln!(
            out,
            "channel {}, from {}, {}: {}",
            channel.number,
            sender_words(rig, channel),
            channel.mapping.counted(),
            verdict
        )?;
        if explain {
            explanation(rig, channel, out)?;
        }
    }
    Ok(())
}

fn explanation(rig: &Rig, channel: &Channel, out: &mut dyn Write) -> Result<(), Failure> {
    let mapping = &channel.mapping;
    let drawing = drawing::draw(rig, mapping);
    let stop = first_stop(&mapping.elements);
    let in_use = mapping.elements.iter().map(|element| element_words(rig, element, stop));
    let unused = mapping.unused.iter().map(|element| unused_words(rig, channel, element));
    let words: Vec<String> = in_use.chain(unused).collect();
    if !drawing.is_empty() {
        writeln!(out, "\n{}", drawing.join("\n"))?;
    }
    if !words.is_empty() {
        writeln!(out, "\n    {}\n", words.join("\n    "))?;
    }
    Ok(())
}

/// What becomes of an element; `stop` is the one at which every payload stops.
fn element_words(rig: &Rig, element: &Element, stop: Option<u8>) -> String {
    if let Some(fault) = element.fault {
        return faults::of_element(rig, element, fault, stop);
    }
    let becomes = faults::unreached(element, stop).unwrap_or_else(|| "whole".to_string());
    format!("element {} {}: {becomes}", element.number, faults::what(rig, element))
}

/// An element that is not in use: no fault of it matters.
fn unused_words(rig: &Rig, channel: &Channel, element: &Element) -> String {
    let index = 0x1600 + u16::from(channel.number);
    let why = words::not_in_use(index, channel.mapping.elements.len());
    format!("element {} {}: {why}", element.number, faults::what(rig, element))
}

/// The sender whose payloads the channel takes.
fn sender(rig: &Rig, channel: &Channel) -> Option<u8> {
    rig.named_sender(channel.number).filter(|_| channel.checked != Checked::NoSender)
}

fn sender_words(rig: &Rig, channel: &Channel) -> String {
    sender(rig, channel).map_or("no node".to_string(), |sender| words::node(rig, sender))
}

/// What is no fault, of each channel, of several channels and of the rig.
fn all_notes(rig: &Rig, channels: &[Channel]) -> Vec<Note> {
    let of_channel = |channel: &Channel| {
        let takes = sender(rig, channel).is_some();
        notes::of_channel(rig, channel.number, &channel.mapping.elements, takes)
    };
    let receiving: Vec<Receiving> = channels
        .iter()
        .filter_map(|channel| {
            let sender = sender(rig, channel)?;
            let elements = &channel.mapping.elements;
            Some(Receiving { channel: channel.number, sender, elements })
        })
        .collect();
    let several = notes::of_channels(rig, &receiving);
    channels.iter().flat_map(of_channel).chain(several).chain(notes::of_rig(rig)).collect()
}

fn json(file: &str, rig: &Rig, channels: &[Channel], notes: &[Note], explain: bool) -> Json {
    let channel = |channel: &Channel| channel_json(rig, channel, explain);
    Json::Object(vec![
        ("rig", Json::text(file)),
        ("pass", Json::Bool(channels.iter().all(|channel| channel.checked.is_pass()))),
        ("channels", Json::List(channels.iter().map(channel).collect())),
        ("notes", Json::List(notes.iter().map(|note| Json::text(note.text.as_str())).collect())),
        ("noted", Json::List(notes.iter().map(Note::json).collect())),
        ("edition", Json::number(rig.edition.number())),
    ])
}

fn channel_json(rig: &Rig, channel: &Channel, explain: bool) -> Json {
    let mapping = &channel.mapping;
    let named = faults::named_element(channel.checked, &mapping.elements);
    let fault = Json::Object(vec![
        ("name", Json::text(channel.checked.name())),
        ("number", Json::number(channel.checked.number())),
        ("element", Json::or_null(named.map(Json::number))),
        ("text", Json::text(channel.sentence.as_str())),
    ]);
    let mut members = vec![
        ("channel", Json::number(channel.number)),
        ("sender", Json::or_null(sender(rig, channel).map(Json::number))),
        ("elements", Json::number(mapping.all().count() as u64)),
        ("pass", Json::Bool(channel.checked.is_pass())),
        ("fault", if channel.checked.is_pass() { Json::Null } else { fault }),
    ];
    if explain {
        let in_use = mapping.elements.iter().map(|element| element_json(element, true));
        let unused = mapping.unused.iter().map(|element| element_json(element, false));
        members.push(("mapping", Json::List(in_use.chain(unused).collect())));
    }
    members.push(("in_use", Json::number(mapping.elements.len() as u64)));
    Json::Object(members)
}

fn element_json(element: &Element, in_use: bool) -> Json {
    let fault = element.fault.filter(|_| in_use);
    let mapped = element.mapped.as_ref();
    let number =
        |of: fn(&Mapped) -> u64| Json::or_null(mapped.map(|mapped| Json::number(of(mapped))));
    Json::Object(vec![
        ("element", Json::number(element.number)),
        ("type", Json::text(element.element_type.name())),
        ("fault", Json::or_null(fault.map(|fault| Json::text(fault.name())))),
        ("index", number(|mapped| mapped.entry.index.into())),
        ("sub_index", number(|mapped| mapped.entry.sub_index.into())),
        ("offset_bits", number(|mapped| mapped.entry.offset_bits.into())),
        ("length_bits", number(|mapped| mapped.entry.length_bits.into())),
        ("target", Json::or_null(mapped.map(|mapped| target_json(mapped.target)))),
        ("in_use", Json::Bool(in_use)),
    ])
}

fn target_json(target: Target) -> Json {
    let kind = |name: &str| ("kind", Json::text(name));
    Json::Object(match target {
        Target::NoObject => vec![kind("no object")],
        Target::NoSubIndex => vec![kind("no sub-index")],
        Target::Count => vec![kind("count")],
        Target::Fixed { value_type, size } => {
            vec![
                kind("value"),
                ("type", Json::text(value_type.name())),
                ("size", Json::number(size as u64)),
            ]
        }
        Target::String { value_type, room } => {
            vec![
                kind("string"),
                ("type", Json::text(value_type.name())),
                ("room", Json::number(room as u64)),
            ]
        }
        other => vec![kind(&other.to_string())],
    })
}
