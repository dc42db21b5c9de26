//! The fields of a payload as its sender fills them, held against those that its receiver takes.

use crate::explain::{first_stop, Element, Mapped};
use crate::faults::{self, last_bytes};
use crate::pair::{Finding, Side};
use crate::rig::Place;
use crate::sent::{self, bytes_of};
use crate::words::{self, named_place, Style};
use loomfinch::{Target, ValueType};
use std::ops::Range;

type Field<'a> = (&'a Element, &'a Mapped);

/// What becomes of each element that the drive sends, and which fields of the console it does not fill.
pub fn compare(drive: &Side, console: &Side, style: Style) -> Vec<Finding> {
    let stop = stop(drive, console);
    let sent = drive.mapping.elements.iter().flat_map(|element| match &element.mapped {
        Some(mapped) => of_sent(drive, console, (element, mapped), &stop, style),
        None => vec![Finding::Fault(sent::nothing(element))],
    });
    let others = console.fields().filter_map(|taken| of_other(drive, console, taken, &stop));
    sent.chain(others).chain(of_nothing(console)).collect()
}

/// What is said of the console's elements that take no field, and of a console that has none.
fn of_nothing(console: &Side) -> Vec<Finding> {
    let mapping = &console.mapping;
    if mapping.elements.is_empty() {
        let why = match mapping.is_off() {
            true => format!("is {}", words::off(console.index)),
            false => "has no element".to_string(),
        };
        let text = format!("the console's mapping {why}: nothing that the drive sends is written");
        return vec![Finding::Fault(text)];
    }
    let takes = |element: &Element| element.mapped.as_ref().map_or(0, Mapped::length) > 0;
    let others = mapping.elements.iter().filter(|element| !takes(element));
    let faults = others.filter_map(|element| own_fault(console, element));
    faults.map(|why| Finding::Fault(format!("of the console, {why}"))).collect()
}

/// Where the drive's payloads stop at the console.
struct Stop {
    element: u8,
    /// `never reached, since every payload stops at element 1`.
    behind: String,
}

/// The first element of the console at which every payload stops, or one as long as the drive's elements make it.
fn stop(drive: &Side, console: &Side) -> Option<Stop> {
    let filled = filled(drive);
    let of_length = console.fields().find(|taken| range(taken.1).end > filled);
    let of_length = of_length.map(|taken| taken.0.number);
    match (first_stop(&console.mapping.elements), of_length) {
        (Some(element), other) if other.map_or(true, |other| element <= other) => {
            let behind = format!("never reached, since every payload stops at element {element}");
            Some(Stop { element, behind })
        }
        (_, Some(element)) => {
            let fills = words::bytes(filled);
            let behind = format!(
                "not reached by a payload of the {fills} that the drive's elements fill, which stops at element {element}"
            );
            Some(Stop { element, behind })
        }
        (_, None) => None,
    }
}

/// How many bytes of the payload the drive's elements reach over.
fn filled(drive: &Side) -> usize {
    drive.fields().map(|sent| range(sent.1).end).max().unwrap_or(0)
}

/// What becomes of an element that the drive sends.
fn of_sent(
    drive: &Side,
    console: &Side,
    (element, mapped): Field,
    stop: &Option<Stop>,
    style: Style,
) -> Vec<Finding> {
    if let Some(fault) = sent::fault(&drive.rig, element, mapped, style) {
        return vec![Finding::Fault(fault)];
    }
    let (field, what) = (range(mapped), sent::what(&drive.rig, element, mapped));
    if field.is_empty() {
        return vec![Finding::Note(what)];
    }
    if console.fields().any(|taken| begin_alike(taken.1, mapped)) {
        let same = console.fields().filter(|taken| begin_alike(taken.1, mapped));
        let pairing = |taken| Pairing { drive, console, sent: mapped, taken, what: what.clone() };
        return same.map(|taken| pairing(taken).finding(stop, style)).collect();
    }
    let apart = console.fields().filter(|taken| overlap(&range(taken.1), &field));
    let apart: Vec<Finding> = apart
        .map(|taken| {
            let (number, takes) = (taken.0.number, bytes_of(&range(taken.1)));
            Finding::Fault(format!(
                "{what}, and the console's element {number} takes {takes}: they do not begin at the same byte"
            ))
        })
        .collect();
    if apart.is_empty() {
        let them = them(field.len());
        return vec![Finding::Note(format!("{what}, and no element of the console takes {them}"))];
    }
    apart
}

/// A field that both sides begin at one byte.
struct Pairing<'a> {
    drive: &'a Side,
    console: &'a Side,
    sent: &'a Mapped,
    taken: Field<'a>,
    /// What the drive sends, in words.
    what: String,
}

impl Pairing<'_> {
    /// What becomes of it.
    fn finding(&self, stop: &Option<Stop>, style: Style) -> Finding {
        let (from, to) = (range(self.sent).len(), range(self.taken.1).len());
        if let Some(stop) = stop.as_ref().filter(|stop| stop.element < self.taken.0.number) {
            return self.fault(&format!("is {}", stop.behind));
        }
        if to > from {
            let more = to - from;
            let others =
                if more == 1 { "byte is".to_string() } else { format!("{more} bytes are") };
            let takes = format!("takes {} onto {}", words::bytes(to), self.at());
            return self.fault(&format!("{takes}: the last {others} not that element's"));
        }
        if let Some(kept) = self.kept().filter(|kept| *kept < from) {
            let lost = last_bytes(from - kept);
            let so = sent::example(&self.drive.rig, self.sent, (from, kept), self.style(style));
            let so = so.map_or(String::new(), |so| format!(", so {so}"));
            let keeps = format!("keeps {kept} of them in {}", self.at());
            return self.fault(&format!("{keeps}: {lost} would be lost{so}"));
        }
        if let Some(why) = own_fault(self.console, self.taken.0) {
            return Finding::Fault(format!("{}, and of the console, {why}", self.what));
        }
        if to < from {
            let (lost, at) = (last_bytes(from - to), self.at());
            return self.fault(&format!("takes {to} of them onto {at}: {lost} would be lost"));
        }
        self.whole()
    }

    fn whole(&self) -> Finding {
        let (number, at, them) = (self.taken.0.number, self.at(), them(range(self.sent).len()));
        let whole = format!(
            "{}, and the console's element {number} writes {them} whole to {at}",
            self.what
        );
        match (source_type(self.drive, self.sent), target_type(self.taken.1)) {
            (Some(one), Some(other)) if one != other => {
                let of = words::type_with_article(one);
                Finding::Note(format!("{whole}: the drive has {of} there"))
            }
            _ => Finding::Whole(whole),
        }
    }

    fn fault(&self, does: &str) -> Finding {
        let number = self.taken.0.number;
        Finding::Fault(format!("{}, and the console's element {number} {does}", self.what))
    }

    /// The console's place, and what is there.
    fn at(&self) -> String {
        format!("{}, {}", place(self.console, self.taken.1), words::target(self.taken.1.target))
    }

    /// How many of the bytes a value of fixed size keeps, where it gets enough of them.
    fn kept(&self) -> Option<usize> {
        match self.taken.1.target {
            Target::Fixed { size, .. } => {
                Some(size).filter(|size| *size <= range(self.taken.1).len())
            }
            _ => None,
        }
    }

    /// The style, with times where the console has one.
    fn style(&self, style: Style) -> Style {
        Style { times: style.times || is_time(self.console, self.taken.1), ..style }
    }
}

/// What is said of a field of the console that no finding on the drive's elements names.
fn of_other(drive: &Side, console: &Side, taken: Field, stop: &Option<Stop>) -> Option<Finding> {
    let field = range(taken.1);
    let met = |sent: &Field| console.fields().any(|taken| begin_alike(taken.1, sent.1));
    let touching = || drive.fields().filter(|sent| overlap(&range(sent.1), &field));
    if touching().any(|sent| begin_alike(taken.1, sent.1) || !met(&sent)) {
        return None;
    }
    let what = format!(
        "the console's element {} takes {} onto {}",
        taken.0.number,
        bytes_of(&field),
        place(console, taken.1)
    );
    let filled = filled(drive);
    let behind = stop.as_ref().filter(|stop| stop.element < taken.0.number);
    Some(Finding::Fault(match (behind, touching().next()) {
        (Some(stop), _) => format!("{what}, and is {}", stop.behind),
        (None, Some((element, mapped))) => {
            let (number, sends) = (element.number, bytes_of(&range(mapped)));
            format!(
                "{what}, and the drive's element {number} sends {sends}: they do not begin at the same byte"
            )
        }
        (None, None) if field.end > filled => {
            let fills = words::bytes(filled);
            format!(
                "{what}, and the drive's elements fill {fills}: a payload of that length stops there"
            )
        }
        (None, None) => format!("{what}, and no element of the drive fills {}", them(field.len())),
    }))
}

/// What is wrong with an element of the console in itself.
fn own_fault(console: &Side, element: &Element) -> Option<String> {
    let stop = first_stop(&console.mapping.elements);
    element.fault.map(|fault| faults::of_element(&console.rig, element, fault, stop))
}

fn begin_alike(one: &Mapped, other: &Mapped) -> bool {
    range(one).start == range(other).start
}

fn them(bytes: usize) -> &'static str {
    if bytes == 1 {
        "it"
    } else {
        "them"
    }
}

fn overlap(one: &Range<usize>, other: &Range<usize>) -> bool {
    one.start < other.end && other.start < one.end
}

fn range(mapped: &Mapped) -> Range<usize> {
    mapped.field.clone().unwrap_or(0..0)
}

fn place(side: &Side, mapped: &Mapped) -> String {
    named_place(&side.rig, mapped.entry.index, mapped.entry.sub_index)
}

fn target_type(mapped: &Mapped) -> Option<ValueType> {
    match mapped.target {
        Target::Fixed { value_type, .. } | Target::String { value_type, .. } => Some(value_type),
        _ => None,
    }
}

fn source_type(side: &Side, mapped: &Mapped) -> Option<ValueType> {
    match side.rig.place(mapped.entry.index, mapped.entry.sub_index) {
        Place::Value(_, value) => Some(value.of),
        _ => None,
    }
}

fn is_time(side: &Side, mapped: &Mapped) -> bool {
    match side.rig.place(mapped.entry.index, mapped.entry.sub_index) {
        Place::Value(_, value) => value.milliseconds,
        _ => false,
    }
}
