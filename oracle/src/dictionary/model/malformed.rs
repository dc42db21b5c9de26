//! The Malformed rule (RULES.md R5.9) read off the four slices, each part of
//! the list by itself. Nothing of layout.rs is used here, so that the two can
//! be held against each other.

use super::memory::{Memory, ROW, SLOT};
use crate::original::size;

type Verdict = Result<(), &'static str>;

fn require(holds: bool, rule: &'static str) -> Verdict {
    if holds { Ok(()) } else { Err(rule) }
}

/// A value's columns, and whether it is its object's default.
struct Seen {
    kind: u64,
    start: u64,
    room: u64,
    word: u64,
    is_default: bool,
}

/// The first rule that the memory breaks, or none. Later parts rely on what
/// the earlier ones found: sums do not overflow, and all that is used is lent.
pub fn judge(memory: &Memory) -> Verdict {
    header(memory)?;
    let rows: Vec<&[u64]> =
        memory.objects[ROW..].chunks(ROW).take(memory.objects[0] as usize).collect();
    rows.iter().try_for_each(|row| columns(row))?;
    let rising = rows.windows(2).all(|pair| pair[0][0] < pair[1][0]);
    require(rising, "index order")?;
    slot_sums(memory, &rows)?;
    let values: Vec<Vec<Seen>> = rows.iter().map(|row| seen(memory, row)).collect();
    values.iter().flatten().try_for_each(value)?;
    byte_sums(memory, &rows, &values)?;
    texts(memory, &rows, &values)?;
    rows.iter().try_for_each(|row| kept(memory.objects[3], row))
}

fn header(memory: &Memory) -> Verdict {
    let Some(header) = memory.objects.get(..ROW) else {
        return Err("no header");
    };
    let [objects, values, bytes] = [header[0], header[1], header[2]];
    require(header[3] == 1 || header[3] == 2, "edition")?;
    require(header[4..].iter().all(|word| *word == 0), "header's zeros")?;
    require(objects <= 1024, "1,024 objects")?;
    require(values <= 6144, "6,144 values")?;
    require(bytes <= 32768, "32,768 bytes")?;
    require(memory.objects.len() as u64 >= 12 + 12 * objects, "objects short")?;
    require(memory.slots.len() as u64 >= 3 * values, "slots short")?;
    require(memory.words.len() as u64 >= values, "words short")?;
    require(memory.bytes.len() as u64 >= bytes, "bytes short")
}

fn columns(row: &[u64]) -> Verdict {
    require(row[0] <= 0xFFFF, "index")?;
    require(row[1] <= 2, "kind")?;
    require(row[2] <= 7, "access")?;
    if row[1] == 0 {
        require(row[3] == 1, "a Variable's count")?;
    }
    require(row[3] <= 254, "254 elements")?;
    require(row[6] <= 32, "name's length")?;
    require(row[7] <= 1, "default's mark")?;
    range(row[9], [row[10], row[11]])
}

/// The type of an object's range, 0 for none, and its ends. Each is moved to the top of 64 bits, where
/// a signed number's sign is theirs.
fn range(kind: u64, ends: [u64; 2]) -> Verdict {
    require(kind <= 8, "range's type")?;
    if kind == 0 {
        return require(ends == [0, 0], "ends of no range");
    }
    let bits = 8 * size(kind).expect("an integer has a size");
    require(ends.iter().all(|end| bits == 64 || end >> bits == 0), "range's end over its size")?;
    let [low, high] = ends.map(|end| end << (64 - bits));
    let rising = if kind <= 4 { low as i64 <= high as i64 } else { low <= high };
    require(rising, "range's order")
}

/// An object's first slot is the number of values of all objects before it.
fn slot_sums(memory: &Memory, rows: &[&[u64]]) -> Verdict {
    let mut sum = 0;
    for row in rows {
        require(row[4] == sum, "first slot")?;
        sum += row[3] + row[7];
    }
    require(memory.objects[1] == sum, "values' total")
}

fn seen(memory: &Memory, row: &[u64]) -> Vec<Seen> {
    let [count, first, default] = [row[3], row[4], row[7]];
    let see = |place: u64| {
        let slot = &memory.slots[SLOT * place as usize..];
        let word = memory.words[place as usize];
        let is_default = place == first + count;
        Seen { kind: slot[0], start: slot[1], room: slot[2], word, is_default }
    };
    (first..first + count + default).map(see).collect()
}

fn value(value: &Seen) -> Verdict {
    let Seen { kind, room, word, is_default, .. } = *value;
    require(kind <= 20, "type")?;
    require(room <= 1490, "room")?;
    let string = size(kind).is_none();
    if is_default {
        require(room == if string { word } else { 0 }, "default's room")?;
    }
    match size(kind) {
        Some(size) => {
            require(size == 8 || word < 1 << (8 * size), "number over its size")?;
        }
        None => require(word <= room, "length over the room")?,
    }
    require(kind != 13 || word % 2 == 0, "odd length")
}

/// Name, rooms and default lie back to back, object after object.
fn byte_sums(memory: &Memory, rows: &[&[u64]], values: &[Vec<Seen>]) -> Verdict {
    let mut sum = 0;
    for (row, values) in rows.iter().zip(values) {
        require(row[5] == sum, "name's start")?;
        sum += row[6];
        for value in values {
            require(value.start == sum, "room's start")?;
            sum += value.room;
        }
    }
    require(memory.objects[2] == sum, "bytes' total")
}

/// A text is judged over its current length only.
fn texts(memory: &Memory, rows: &[&[u64]], values: &[Vec<Seen>]) -> Verdict {
    let is_text = |start: u64, length: u64| {
        let bytes = &memory.bytes[start as usize..][..length as usize];
        std::str::from_utf8(bytes).is_ok()
    };
    require(rows.iter().all(|row| is_text(row[5], row[6])), "name not UTF-8")?;
    let mut strings = values.iter().flatten().filter(|value| value.kind == 11);
    require(strings.all(|value| is_text(value.start, value.word)), "text not UTF-8")
}

/// A kept count above the elements, by the edition and the kind.
pub const KEPT_TOO_MANY: [[&str; 3]; 2] = [
    [
        "a Variable's kept count, edition 1",
        "an Array's kept count, edition 1",
        "a Record's kept count, edition 1",
    ],
    [
        "a Variable's kept count, edition 2",
        "an Array's kept count, edition 2",
        "a Record's kept count, edition 2",
    ],
];

/// In either edition, whether it is looked at or not. It is asked last, since a wrong number of
/// elements breaks it too.
fn kept(edition: u64, row: &[u64]) -> Verdict {
    require(row[8] <= row[3], KEPT_TOO_MANY[edition as usize - 1][row[1] as usize])
}
