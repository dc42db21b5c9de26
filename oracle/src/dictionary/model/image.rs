//! The stored image of a table (RULES.md R10.3 and R10.5), and its reading (R10.7).

use crate::original;

const MOST_RECORDS: usize = 2048;
const MOST_BODIES: usize = 16_384;

/// A saved value: where it stands, its type and its encoding.
#[derive(Clone, PartialEq, Eq, Debug)]
pub struct Record {
    pub index: u16,
    pub sub_index: u8,
    pub kind: u8,
    pub body: Vec<u8>,
}

/// Bytes of the image of so many records with so many bytes in their bodies.
pub fn length(records: usize, bodies: usize) -> usize {
    2 + 8 * records + bodies
}

/// What of R10.3 an image of these records would pass.
pub fn full(records: &[Record], store: usize) -> Option<&'static str> {
    let bodies = records.iter().map(|record| record.body.len()).sum();
    let passed = [
        (records.len() > MOST_RECORDS, "2,048 records"),
        (bodies > MOST_BODIES, "16,384 bytes"),
        (length(records.len(), bodies) > store, "store lent"),
    ];
    let mut causes = passed.into_iter().filter(|(passed, _)| *passed).map(|(_, cause)| cause);
    let first = causes.next()?;
    Some(if causes.next().is_some() { "several causes" } else { first })
}

/// They rise by place, and are few enough for every number.
pub fn of(records: &[Record]) -> Vec<u8> {
    let mut image = (records.len() as u16).to_le_bytes().to_vec();
    let mut start = 0;
    for Record { index, sub_index, kind, body } in records {
        let length = body.len() as u16;
        image.extend(index.to_le_bytes());
        image.extend([*sub_index, *kind]);
        image.extend([start, length].map(u16::to_le_bytes).concat());
        start += length;
    }
    records.iter().for_each(|record| image.extend(&record.body));
    image
}

/// The table that the store has the image of, or which part of R10.7 says that it has none.
/// Nothing of `of` is used, so that the two can be held against each other.
pub fn read(store: &[u8]) -> Result<Vec<Record>, &'static str> {
    let Some(([low, high], behind)) = store.split_first_chunk().map(|(head, rest)| (*head, rest))
    else {
        return Err("no store");
    };
    let count = usize::from(low) + 256 * usize::from(high);
    require(count <= MOST_RECORDS, "over 2,048 records")?;
    require(8 * count <= behind.len(), "records past the store")?;
    let (rows, bodies) = behind.split_at(8 * count);
    let rows: Vec<[usize; 5]> = rows.chunks(8).map(columns).collect();
    let total: usize = rows.iter().map(|row| row[4]).sum();
    require(total <= MOST_BODIES, "over 16,384 bytes")?;
    require(total <= bodies.len(), "bodies past the store")?;
    require(rows.windows(2).all(|pair| pair[0][..2] < pair[1][..2]), "places that do not rise")?;
    let mut end = 0;
    for row in &rows {
        require(row[3] == end, "a start that is not the end before it")?;
        end += row[4];
    }
    rows.iter().map(|row| record(row, bodies)).collect()
}

fn require(holds: bool, rule: &'static str) -> Result<(), &'static str> {
    if holds { Ok(()) } else { Err(rule) }
}

/// Index, sub-index, type, start and length.
fn columns(row: &[u8]) -> [usize; 5] {
    let byte = |at: usize| usize::from(row[at]);
    let pair = |at: usize| byte(at) + 256 * byte(at + 1);
    [pair(0), byte(2), byte(3), pair(4), pair(6)]
}

/// The Rust's own decoding takes a fixed type's first bytes, so the lengths are held as well.
fn record(row: &[usize; 5], bodies: &[u8]) -> Result<Record, &'static str> {
    let [index, sub_index, kind, start, length] = *row;
    let body = bodies[start..][..length].to_vec();
    require(kind < original::KINDS as usize, "no such type")?;
    let value = original::decode(kind as u64, &body).map_err(|_| "a value that does not decode")?;
    require(value.serialize().len() == length, "a value longer than its type")?;
    Ok(Record { index: index as u16, sub_index: sub_index as u8, kind: kind as u8, body })
}
