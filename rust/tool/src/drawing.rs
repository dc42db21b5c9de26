//! A payload drawn in text: which bytes go to which object, where fields overlap, what is cut.

use crate::explain::{Element, Mapping};
use crate::rig::Rig;
use crate::words::named_place;
use loomfinch::{Fault, Target};
use std::ops::Range;

/// A field of the payload and what becomes of its bytes.
struct Field {
    label: String,
    bytes: Range<usize>,
    /// How many of its first bytes are kept.
    kept: usize,
    /// The sign of those that are not.
    mark: char,
    target: String,
}

const KEPT: char = '=';
const LOST: char = 'x';
const HANDED_ON: char = 's';
const NOT_WHOLE: char = '?';
const UNREACHED: char = '-';
const NOT_IN_USE: char = '.';
const SHARED: char = '~';

const SIGNS: [(char, &str); 7] = [
    (KEPT, "kept"),
    (LOST, "lost"),
    (HANDED_ON, "handed on to SDO"),
    (NOT_WHOLE, "not whole bytes"),
    (UNREACHED, "never reached"),
    (NOT_IN_USE, "not in use"),
    (SHARED, "in more than one element"),
];

/// The drawing's lines; none where no element takes a byte.
pub fn draw(rig: &Rig, mapping: &Mapping) -> Vec<String> {
    let elements = mapping.elements.as_slice();
    let reached = elements.iter().position(Element::stops).map_or(elements.len(), |k| k + 1);
    let (reached, others) = elements.split_at(reached);
    let fields = reached.iter().filter_map(|element| field(rig, element, fate(element)));
    let others = others.iter().filter_map(|element| field(rig, element, (0, UNREACHED)));
    let unused = mapping.unused.iter().filter_map(|element| field(rig, element, (0, NOT_IN_USE)));
    let fields: Vec<Field> = fields.chain(others).chain(unused).collect();
    if fields.is_empty() {
        return Vec::new();
    }
    let sheet = Sheet::new(&fields);
    let mut lines = Vec::new();
    let mut last: Option<Vec<String>> = None;
    let mut same_until = None;
    for band in sheet.bands() {
        let rows = sheet.rows(&band);
        if last.as_ref() == Some(&rows) {
            same_until = Some(band.end - 1);
            continue;
        }
        lines.extend(same_until.take().map(same));
        lines.push(sheet.header(&band));
        lines.extend(rows.iter().cloned());
        last = Some(rows);
    }
    lines.extend(same_until.map(same));
    lines.push(sheet.legend());
    lines
}

fn same(until: usize) -> String {
    format!("{:>13}  up to byte {}", "the same", until)
}

/// How many bytes of an element's field are kept, and the sign of the others.
fn fate(element: &Element) -> (usize, char) {
    let target = element.mapped.as_ref().map(|mapped| (mapped.target, mapped.length()));
    match (element.fault, target) {
        _ if element.stops() => (0, LOST),
        (None, Some((_, length))) => (length, LOST),
        (Some(Fault::Misaligned), _) => (0, NOT_WHOLE),
        (Some(Fault::HandOff), _) => (0, HANDED_ON),
        (Some(Fault::WrongLength), Some((Target::Fixed { size, .. }, length))) => {
            (size.min(length), LOST)
        }
        _ => (0, LOST),
    }
}

/// An element's field; none where it is no mapping word, or empty.
fn field(rig: &Rig, element: &Element, (kept, mark): (usize, char)) -> Option<Field> {
    let mapped = element.mapped.as_ref()?;
    let entry = mapped.entry;
    let bytes = usize::from(entry.offset_bits) / 8..mapped.end;
    let label = format!("element {}", element.number);
    let target = named_place(rig, entry.index, entry.sub_index);
    Some(Field { label, bytes, kept, mark, target }).filter(|_| entry.length_bits > 0)
}

/// How the fields are laid out: bands of bytes, each byte so many signs wide.
struct Sheet<'a> {
    fields: &'a [Field],
    /// How many bytes the fields reach over.
    end: usize,
    cell: usize,
    across: usize,
}

impl Sheet<'_> {
    fn new(fields: &[Field]) -> Sheet<'_> {
        let end = fields.iter().map(|field| field.bytes.end).max().unwrap_or(0);
        let digits = end.saturating_sub(1).to_string().len();
        Sheet { fields, end, cell: (digits + 1).max(3), across: if digits > 2 { 10 } else { 16 } }
    }

    fn bands(&self) -> impl Iterator<Item = Range<usize>> {
        let (end, across) = (self.end, self.across);
        (0..end).step_by(across).map(move |from| from..(from + across).min(end))
    }

    fn header(&self, band: &Range<usize>) -> String {
        let numbers: String = band.clone().map(|byte| format!("{:^1$}", byte, self.cell)).collect();
        row("byte", &numbers, "")
    }

    fn rows(&self, band: &Range<usize>) -> Vec<String> {
        let touching =
            |field: &&Field| field.bytes.start < band.end && band.start < field.bytes.end;
        let mut rows = Vec::new();
        for field in self.fields.iter().filter(touching) {
            let target = if band.contains(&field.bytes.start) { field.target.as_str() } else { "" };
            rows.push(row(&field.label, &self.cells(field, band), target));
        }
        if rows.is_empty() {
            rows.push(row("no element", "", ""));
        }
        if band.clone().any(|byte| self.is_shared(byte)) {
            let sign = |byte| if self.is_shared(byte) { SHARED } else { ' ' };
            let cells: String =
                band.clone().map(|byte| sign(byte).to_string().repeat(self.cell)).collect();
            rows.push(row("overlap", &cells, ""));
        }
        rows
    }

    /// A field's part of a band that it touches.
    fn cells(&self, field: &Field, band: &Range<usize>) -> String {
        let mut cells: Vec<char> = Vec::new();
        for byte in band.clone() {
            let sign = match byte.checked_sub(field.bytes.start) {
                Some(place) if place < field.kept => KEPT,
                Some(place) if place < field.bytes.len() => field.mark,
                _ => ' ',
            };
            cells.extend(std::iter::repeat(sign).take(self.cell));
        }
        if band.contains(&field.bytes.start) {
            cells[(field.bytes.start - band.start) * self.cell] = '[';
        }
        if field.bytes.end <= band.end {
            cells[(field.bytes.end - band.start) * self.cell - 1] = ']';
        }
        cells.into_iter().collect()
    }

    fn is_shared(&self, byte: usize) -> bool {
        let takes = |field: &&Field| field.mark != NOT_IN_USE && field.bytes.contains(&byte);
        self.fields.iter().filter(takes).count() > 1
    }

    /// What the signs that were used mean.
    fn legend(&self) -> String {
        let used = |sign: char| match sign {
            KEPT => self.fields.iter().any(|field| field.kept > 0),
            SHARED => (0..self.end).any(|byte| self.is_shared(byte)),
            mark => {
                self.fields.iter().any(|field| field.mark == mark && field.kept < field.bytes.len())
            }
        };
        let signs = SIGNS.iter().filter(|entry| used(entry.0));
        let words: Vec<String> = signs.map(|entry| format!("{} {}", entry.0, entry.1)).collect();
        row("", &words.join("   "), "")
    }
}

fn row(label: &str, cells: &str, target: &str) -> String {
    format!("{label:>13}  {cells}  {target}").trim_end().to_string()
}
