//! Prints a history that differs.

use crate::call::number_fill;
use crate::dictionary::link::Given;
use crate::dictionary::model::answers::answer_name;
use crate::dictionary::model::insertion::Insertion;
use crate::dictionary::model::layout::{Object, Value, is_string};
use crate::dictionary::model::memory::{Lent, Memory, SLICES};
use crate::dictionary::model::step::{Call, Cycle, History, Outcome, Received, Step, Write};
use crate::dictionary::model::world::Wanted;

/// Cells, or objects, of one kind that are printed.
const MOST_CELLS: usize = 24;

/// Where a history first differs. Without `given` the port gave no answer: it
/// was stopped by a fault, or by the clock.
pub struct Difference {
    pub step: usize,
    pub call: Call,
    pub given: Option<Given>,
    pub wanted: Wanted,
    pub before: Memory,
    pub after: Memory,
}

pub fn history(history: &History) {
    println!("differs: {}", lent(&history.first));
    steps(&history.steps);
}

pub fn steps(steps: &[Step]) {
    for step in steps {
        match step {
            Step::Lend(lengths) => println!("    {}", lent(lengths)),
            Step::Lay(objects) => lay(objects),
            Step::Put { slice, at, cell } => println!("    {}[{at}] = {cell:X}", SLICES[*slice]),
            Step::Store(bytes) => println!("    store = {}", text(bytes)),
            Step::Call(made) => println!("    {}", call(made)),
        }
    }
}

pub fn difference(found: &Difference) {
    match &found.given {
        Some(given) => {
            println!("    given:  {}{}", outcome(&given.outcome), strays(given));
            given_changes(given);
        }
        None => println!("    given:  nothing, the program stopped (a fault, or no end)"),
    }
    println!("    wanted: {}", outcome(&found.wanted.outcome));
    if let Some(cause) = found.wanted.cause {
        println!("        because of: {cause}");
    }
    wanted_changes(&found.before, &found.after);
}

fn lay(objects: &[Object]) {
    objects.iter().take(MOST_CELLS).for_each(|shown| println!("    lay {}", object(shown)));
    if objects.len() > MOST_CELLS {
        println!("    .. (lay {} objects in all)", objects.len());
    }
}

fn lent(Lent { at_start, lengths, store }: &Lent) -> String {
    let slices = SLICES
        .iter()
        .zip(lengths.iter().chain([store]))
        .map(|(name, length)| format!("{name} {length}"));
    let side = if *at_start { "starting" } else { "ending" };
    format!("lent {}, each {side} at a guard page", slices.collect::<Vec<String>>().join(", "))
}

fn object(object: &Object) -> String {
    let values: Vec<String> = object.values.iter().map(value).collect();
    let default = object.default.as_ref().map_or("none".to_string(), value);
    let Object { index, shape, access, name, range, .. } = object;
    format!(
        "{index:04X}h kind {shape} access {access} name {} values [{}] default {default} \
         range (hex) {:X?} kept {}",
        text(name),
        few(values),
        range.ends(),
        object.kept_count()
    )
}

fn value(value: &Value) -> String {
    let Value { kind, word, room } = value;
    let bytes = if is_string(*kind) { format!(" {}", text(room)) } else { String::new() };
    format!("(type {kind} word {word:X} room {}{bytes})", room.len())
}

pub fn call(call: &Call) -> String {
    let name = call.name();
    match call {
        Call::New(edition) => format!("{name}, edition {edition:X}"),
        Call::Insert(given) => insertion(given),
        Call::Read { index, sub_index, numbers } => {
            format!("{name} {index:04X}h/{sub_index}, {numbers} numbers lent")
        }
        Call::ReadNumber { index, sub_index, .. } | Call::IncrementCounter { index, sub_index } => {
            format!("{name} {index:04X}h/{sub_index}")
        }
        Call::FindByName(wanted) => format!("{name} {}", text(wanted)),
        Call::GetConfiguredCns(out) => format!("{name}, {out} bytes lent"),
        Call::Write(Write { index, sub_index, kind, data }) => {
            format!("{name} {index:04X}h/{sub_index} type {kind:X} data {}", text(data))
        }
        Call::ValidatePdoMapping { index, count } => format!("{name} {index:04X}h, {count}"),
        Call::RestorePowerOnValues { first, last } => format!("{name} {first:04X}h..{last:04X}h"),
        Call::ConsumePdoPayload(given) => received(name, given),
        Call::ConsumeCycle(given) => cycle(name, given),
        Call::UpdatePdoErrorObject { index, node } => format!("{name} {index:04X}h, node {node}"),
        Call::Check(channel) => format!("{name} channel {channel}"),
        Call::CheckAll(room) => format!("{name}, {room} numbers lent"),
        Call::Explain { channel, element, room } => {
            format!("{name} channel {channel} element {element}, {room} numbers lent")
        }
    }
}

fn received(name: &str, given: &Received) -> String {
    let Received { payload, sender, version, ready, room } = given;
    let bytes = text(payload);
    format!(
        "{name} {bytes} sender {sender} version {version:X} ready {ready:X}, {room} events lent"
    )
}

fn cycle(name: &str, given: &Cycle) -> String {
    let Cycle { data, payloads, room } = given;
    let numbers = payloads.chunks(5).map(|payload| format!("{payload:X?}")).collect();
    format!("{name} data {} payloads (hex) [{}], {room} events lent", text(data), few(numbers))
}

fn insertion(given: &Insertion) -> String {
    let Insertion { index, shape, access, has_default, ends, name, numbers, encodings } = given;
    let values = numbers.chunks(3).map(|value| format!("{value:X?}")).collect();
    format!(
        "insert {index:04X}h kind {shape:X} access {access:X} default {has_default:X} \
         range (hex) {ends:X?} name {} vals (hex) [{}] encodings {}",
        text(name),
        few(values),
        text(encodings)
    )
}

pub fn answer(answer: u64) -> String {
    format!("{answer} {}", answer_name(answer))
}

fn outcome(outcome: &Outcome) -> String {
    let Outcome { answer, numbers, out, events } = outcome;
    let mut line = self::answer(*answer);
    if !numbers.is_empty() {
        line += &format!(", numbers [{}]", cells(numbers));
    }
    if !out.is_empty() {
        line += &format!(", output {}", text(out));
    }
    let written = events.iter().enumerate().filter(|(place, event)| **event != number_fill(*place));
    let written: Vec<String> =
        written.map(|(place, event)| format!("{place}: {event:X}")).collect();
    if !written.is_empty() {
        line += &format!(", events {}", few(written));
    }
    line
}

/// Numbers in hex, with a dot for each that is as it was lent.
fn cells(numbers: &[u64]) -> String {
    let cell = |(place, number): (usize, &u64)| match *number {
        number if number == number_fill(place) => ".".to_string(),
        number => format!("{number:X}"),
    };
    numbers.iter().enumerate().map(cell).collect::<Vec<String>>().join(" ")
}

fn strays(given: &Given) -> String {
    let places = ["what is only read", "around the results"].into_iter().chain(SLICES);
    let touched = places.enumerate().filter(|(bit, _)| given.strays >> bit & 1 == 1);
    touched.map(|(_, place)| format!("; touched: {place}")).collect()
}

fn given_changes(given: &Given) {
    for change in &given.changes {
        let cells = change.cells.iter().map(|cell| format!("{cell:X}")).collect();
        println!("        {} from {} on: {}", SLICES[change.slice], change.first, few(cells));
    }
}

fn wanted_changes(before: &Memory, after: &Memory) {
    for (slice, name) in SLICES.iter().enumerate() {
        let length = before.length(slice);
        let differs = |at: &usize| before.get(slice, *at) != after.get(slice, *at);
        let places: Vec<usize> = (0..length).filter(differs).collect();
        if let (Some(first), Some(last)) = (places.first(), places.last()) {
            let cells = (*first..=*last).map(|at| format!("{:X}", after.get(slice, at))).collect();
            println!("        {name} from {first} on: {}", few(cells));
        }
    }
}

fn text(bytes: &[u8]) -> String {
    match std::str::from_utf8(bytes) {
        Ok(text) if bytes.len() <= 40 && !text.contains(char::is_control) => format!("{text:?}"),
        _ => format!("[{}]", few(bytes.iter().map(|byte| format!("{byte:02X}")).collect())),
    }
}

fn few(cells: Vec<String>) -> String {
    match cells.len() {
        0..=MOST_CELLS => cells.join(" "),
        length => format!("{} .. ({length} of them)", cells[..MOST_CELLS].join(" ")),
    }
}
