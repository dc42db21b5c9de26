//! Why a field of a payload was not written, in plain words.

use crate::broken;
use crate::console::Received;
use crate::explain::{Element, Mapped};
use crate::words;
use loomfinch::{Cause, Event, Target, Unwritten};

pub fn passed_over(element: &Element) -> &'static str {
    match &element.mapped {
        None => "it is no mapping word",
        Some(mapped) if mapped.field.is_none() => "it is not whole bytes",
        Some(Mapped { target: Target::NoObject, .. }) => "there is no such object",
        Some(Mapped { target: Target::NoSubIndex, .. }) => "there is no such sub-index",
        Some(_) => "it is a mapping's count",
    }
}

pub fn refused(event: Event, element: &Element) -> String {
    let why = match event {
        Event::WriteRefused(why) => why,
        event => return event.to_string(),
    };
    match (why, &element.mapped) {
        (Unwritten::CountNotWritable, _) => "it is a list's count".to_string(),
        (Unwritten::TooLong, Some(mapped @ Mapped { target: Target::String { room, .. }, .. })) => {
            format!("{} are more than its room of {}", words::bytes(mapped.length()), room)
        }
        (Unwritten::TooLong, _) => "it is longer than its room".to_string(),
        (why, _) => why.to_string(),
    }
}

pub fn stopped(cause: Cause, element: &Element, received: &Received) -> String {
    match (cause, &element.mapped) {
        (Cause::Frame, Some(mapped)) => format!(
            "it needs {} of payload, and {} came",
            words::bytes(mapped.end),
            received.payload.len()
        ),
        (Cause::Frame, None) => "it has too few bytes".to_string(),
        (Cause::Value { needed, had }, mapped) => format!(
            "a field of {} is too short for {} of {}",
            words::bytes(had.into()),
            mapped.as_ref().map_or("a value".to_string(), value),
            words::bytes(needed.into())
        ),
        (Cause::Text { at }, mapped) => {
            let field = mapped.as_ref().and_then(|mapped| mapped.field.clone());
            let field = field.and_then(|field| received.payload.get(field));
            field.map_or("the field is no text in UTF-8".to_string(), |field| {
                broken::sentence("field", field, at.into())
            })
        }
        (Cause::Odd, _) => "the field has an odd number of bytes".to_string(),
        (cause, _) => cause.to_string(),
    }
}

/// The value that an element maps onto.
fn value(mapped: &Mapped) -> String {
    match mapped.target {
        Target::Fixed { value_type, .. } => words::type_with_article(value_type),
        Target::Count => words::target(mapped.target),
        _ => "a value".to_string(),
    }
}
