//! A replay as lines of JSON: one for each frame that is told, and the last for the table.

use crate::console::Console;
use crate::frame;
use crate::json::Json;
use crate::player::{Head, When};
use crate::report::{Changed, Line, Told};
use crate::rig::Rig;
use crate::table::{Row, Table};
use crate::trouble::{Incident, Trouble};
use loomfinch::Cause;

pub fn frame(
    rig: &Rig,
    packet: u64,
    when: &When,
    head: &Head,
    told: &Told,
    lines: &[&Line],
) -> Json {
    let poll = head.poll;
    let text = |text: String| Json::Text(text);
    let name = head.sender.and_then(|sender| rig.nodes.get(&sender));
    let state = poll.and_then(|poll| poll.state).map(frame::state_name);
    let changes = told.changes.iter().map(change).collect();
    let troubles = told.troubles.iter().map(incident).collect();
    let lines = lines.iter().map(|line| Json::text(line.text.trim_start())).collect();
    Json::Object(vec![
        ("packet", Json::number(packet)),
        ("nanoseconds", Json::or_null(when.after.map(Json::Number))),
        ("clock", Json::or_null(when.clock.clone().map(text))),
        ("frame", Json::text(head.name())),
        ("sender", Json::or_null(head.sender.map(Json::number))),
        ("name", Json::or_null(name.cloned().map(text))),
        ("state", Json::or_null(state.map(text))),
        ("version", Json::or_null(poll.map(|poll| Json::number(poll.version)))),
        ("ready", Json::or_null(poll.map(|poll| Json::Bool(poll.ready)))),
        ("bytes", Json::or_null(poll.map(|poll| Json::number(poll.payload.len() as u64)))),
        ("taken", Json::Bool(told.taken)),
        ("changes", Json::List(changes)),
        ("troubles", Json::List(troubles)),
        ("lines", Json::List(lines)),
    ])
}

fn change(change: &Changed) -> Json {
    Json::Object(vec![
        ("index", Json::number(change.index)),
        ("sub_index", Json::number(change.sub_index)),
        ("before", Json::text(change.before.as_str())),
        ("after", Json::text(change.after.as_str())),
    ])
}

fn incident(incident: &Incident) -> Json {
    let mut members = vec![("kind", Json::text(incident.kind.name()))];
    members.extend(said(incident));
    Json::Object(members)
}

/// What is said of an incident, with the numbers of a stop: the byte of a bad text, and the bytes that a short value needs and had.
fn said(incident: &Incident) -> Vec<(&'static str, Json)> {
    let (at, needed, had) = match incident.cause {
        Some(Cause::Text { at }) => (Some(at), None, None),
        Some(Cause::Value { needed, had }) => (None, Some(needed), Some(had)),
        _ => (None, None, None),
    };
    let number = |number: Option<u16>| Json::or_null(number.map(Json::number));
    vec![
        ("text", Json::text(incident.text.as_str())),
        ("element", Json::or_null(incident.element.map(Json::number))),
        ("at", number(at)),
        ("needed", number(needed)),
        ("had", number(had)),
    ]
}

pub fn table(table: &Table, console: &Console, notes: &[String]) -> Json {
    let senders = table.senders().map(|(sender, row)| of_sender(console, *sender, row)).collect();
    let other = |(kind, frames): (String, u64)| {
        Json::Object(vec![("kind", Json::Text(kind)), ("frames", Json::number(frames))])
    };
    Json::Object(vec![
        ("senders", Json::List(senders)),
        ("others", Json::List(table.others().map(other).collect())),
        ("nothing", Json::or_null(table.nothing(console).map(Json::text))),
        ("notes", Json::List(notes.iter().map(|note| Json::text(note.as_str())).collect())),
    ])
}

fn of_sender(console: &Console, sender: Option<u8>, row: &Row) -> Json {
    let channel = sender.and_then(|sender| console.channel_of(sender));
    let kind = |kind: Trouble| {
        let (packet, incident) = row.troubles.first(kind)?;
        let mut members = vec![
            ("kind", Json::text(kind.name())),
            ("frames", Json::number(row.troubles.frames(kind))),
            ("first", Json::number(packet)),
        ];
        members.extend(said(incident));
        Some(Json::Object(members))
    };
    Json::Object(vec![
        ("sender", Json::or_null(sender.map(Json::number))),
        ("channel", Json::or_null(channel.map(Json::number))),
        ("frames", Json::number(row.frames)),
        ("not_ready", Json::number(row.not_ready)),
        ("fields_written", Json::number(row.written)),
        ("troubles", Json::List(Trouble::ALL.into_iter().filter_map(kind).collect())),
    ])
}
