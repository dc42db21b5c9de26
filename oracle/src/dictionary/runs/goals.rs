//! What a run must reach of insertions, writes, saves, count checks, restores and explanations:
//! every answer, and each way to come to it.

use crate::dictionary::model::answers::answer_name;
use crate::dictionary::model::explained::{THERE, VERDICTS, verdict_name};
use crate::dictionary::model::malformed::KEPT_TOO_MANY;
use crate::dictionary::model::ranged::{ABOVE, BELOW, LEFT_OUTSIDE, NOTES as RANGES};
use crate::dictionary::shown::tally::{Goal, Tally};
use crate::sorts::BAD_TEXTS;

/// What a run did not reach.
pub fn lacking(tally: &Tally) -> Vec<String> {
    let answers = [&INSERT[..], &WRITE, &SAVE, &COUNT, &RESTORE].concat();
    let numbers = tally.not_noted(WRITES, &["numbers for what no room holds"]);
    let ranges = ranges_lacking(tally);
    [tally.missed(&answers), numbers_lacking(tally), numbers, restores_lacking(tally), ranges]
        .concat()
}

/// What the stored histories with a store did not reach.
pub fn lacking_stored(tally: &Tally) -> Vec<String> {
    let mut answers = [&WRITE[..], &SAVE, &COUNT, &RESTORE].concat();
    answers.retain(|goal| !UNSTORED.contains(goal));
    [tally.missed(&answers), numbers_lacking(tally), restores_lacking(tally)].concat()
}

/// Of data that is no text, and of where BadValue has numbers.
fn numbers_lacking(tally: &Tally) -> Vec<String> {
    let texts = BAD_TEXTS.map(|name| (WRITES, 2, Some(name)));
    [tally.missed(&texts), tally.not_noted(WRITES, &NUMBERS)].concat()
}

/// Of ranges, which the stored histories have none of: each way to be given wrong, to be damaged, to
/// refuse a write and not to be asked; and each call that leaves a value outside one. With them kept
/// counts that are damaged.
fn ranges_lacking(tally: &Tally) -> Vec<String> {
    let given = ENDS.map(|rule| (INSERTS, 2, Some(rule)));
    let damaged = [&ROWS[..], &KEPT_TOO_MANY[0]].concat();
    let damaged: Vec<Goal> = damaged.into_iter().map(|rule| (EVERY, 1, Some(rule))).collect();
    let refused = [BELOW, ABOVE].concat();
    let refused: Vec<Goal> = refused.into_iter().map(|side| (WRITES, 21, Some(side))).collect();
    let left = LEAVING.map(|call| tally.not_noted(call, &[LEFT_OUTSIDE])).concat();
    let noted = [tally.not_noted(WRITES, &RANGES), tally.not_noted(INSERTS, &BESIDES)].concat();
    [tally.missed(&given), tally.missed(&damaged), tally.missed(&refused), noted, left].concat()
}

fn restores_lacking(tally: &Tally) -> Vec<String> {
    [&IMAGES[..], &RESTORED].map(|notes| tally.not_noted(RESTORES, notes)).concat()
}

const INSERTS: &str = "insert";
const WRITES: &str = "write";
const COUNTS: &str = "validate_pdo_mapping";
const RESTORES: &str = "restore_power_on_values";
const EXPLAINS: &str = "explain";

/// Under which the causes of Malformed are counted.
const EVERY: &str = "every call";

/// The calls that look at no range when they put values.
const LEAVING: [&str; 5] =
    [INSERTS, RESTORES, "increment_counter", "consume_pdo_payload", "consume_cycle"];

/// The ends of a range that are BadValue to an insertion.
const ENDS: [&str; 5] = [
    "ends' types differ",
    "ends of no type",
    "ends of no integer type",
    "end over its size",
    "ends reversed",
];

/// What holds too and must come behind that.
const BESIDES: [&str; 2] =
    ["wrong ends where the index is taken", "wrong ends where no room is left"];

/// The range of a row that is Malformed.
const ROWS: [&str; 4] =
    ["range's type", "ends of no range", "range's end over its size", "range's order"];

const INSERT: [Goal; 37] = [
    (INSERTS, 0, Some("the first object")),
    (INSERTS, 0, Some("before all others")),
    (INSERTS, 0, Some("between others")),
    (INSERTS, 0, Some("behind all others")),
    (INSERTS, 1, None),
    (INSERTS, 2, Some("kind")),
    (INSERTS, 2, Some("access")),
    (INSERTS, 2, Some("has_default")),
    (INSERTS, 2, Some("name too long")),
    (INSERTS, 2, Some("name not UTF-8")),
    (INSERTS, 2, Some("numbers not by three")),
    (INSERTS, 2, Some("no value for the default")),
    (INSERTS, 2, Some("not one value")),
    (INSERTS, 2, Some("elements")),
    (INSERTS, 2, Some("type")),
    (INSERTS, 2, Some("room")),
    (INSERTS, 2, Some("byte count")),
    (INSERTS, 2, Some("not UTF-8")),
    (INSERTS, 2, Some("odd")),
    (INSERTS, 2, Some("longer than its room")),
    (INSERTS, 2, Some("default's type")),
    (INSERTS, 2, Some("default's room")),
    (INSERTS, 2, Some("default's byte count")),
    (INSERTS, 2, Some("default not UTF-8")),
    (INSERTS, 2, Some("default odd")),
    (INSERTS, 2, Some("default longer than its room")),
    (INSERTS, 2, Some("default's room not its length")),
    (INSERTS, 2, Some("bytes missing")),
    (INSERTS, 2, Some("bytes left over")),
    (INSERTS, 16, None),
    (INSERTS, 17, Some("1,024 objects")),
    (INSERTS, 17, Some("6,144 values")),
    (INSERTS, 17, Some("32,768 bytes")),
    (INSERTS, 17, Some("objects lent")),
    (INSERTS, 17, Some("slots lent")),
    (INSERTS, 17, Some("words lent")),
    (INSERTS, 17, Some("bytes lent")),
];

/// Of a write that asks for no save.
const WRITE: [Goal; 40] = [
    (WRITES, 0, Some("a number put")),
    (WRITES, 0, Some("a string put")),
    (WRITES, 0, Some("a Variable's count put")),
    (WRITES, 0, Some("an Array's count accepted")),
    (WRITES, 0, Some("a Record's count accepted")),
    (WRITES, 1, None),
    (WRITES, 2, Some("type")),
    (WRITES, 2, Some("too few bytes")),
    (WRITES, 2, Some("too many bytes")),
    (WRITES, 2, Some("odd")),
    (WRITES, 3, Some("a value")),
    (WRITES, 3, Some("a count of 0")),
    (WRITES, 3, Some("a count of what is not there")),
    (WRITES, 3, Some("a count of a Variable")),
    (WRITES, 3, Some("a count of a Record")),
    (WRITES, 4, Some("a Variable's")),
    (WRITES, 4, Some("behind a list's end")),
    (WRITES, 5, Some("a Variable's")),
    (WRITES, 5, Some("an element's")),
    (WRITES, 5, Some("a count of another type")),
    (WRITES, 5, Some("a Variable's count")),
    (WRITES, 6, Some("ReadOnly")),
    (WRITES, 6, Some("Constant")),
    (WRITES, 6, Some("a mapping's count")),
    (WRITES, 7, Some("1010h, no VisibleString")),
    (WRITES, 7, Some("1010h, another text")),
    (WRITES, 7, Some("1010h, sub-index 0")),
    (WRITES, 7, Some("1011h, no VisibleString")),
    (WRITES, 7, Some("1011h, another text")),
    (WRITES, 7, Some("1011h, sub-index 0")),
    (WRITES, 8, Some("1011h")),
    (WRITES, 9, Some("an Unsigned8")),
    (WRITES, 9, Some("another type")),
    (WRITES, 10, Some("too few elements")),
    (WRITES, 10, Some("an element of another type")),
    (WRITES, 11, Some("the limit 1F98h/1")),
    (WRITES, 11, Some("the limit 1F98h/2")),
    (WRITES, 11, Some("the limit of 1,490 bytes")),
    (WRITES, 13, None),
    (WRITES, 19, None),
];

/// Where a write of no value, which is judged before its place, has numbers.
const NUMBERS: [&str; 5] = [
    "numbers at 1010h",
    "numbers at 1011h",
    "numbers for a mapping's count",
    "numbers where a value is",
    "numbers where no value is",
];

const SAVE: [Goal; 10] = [
    (WRITES, 0, Some("list 1 saved")),
    (WRITES, 0, Some("list 2 saved")),
    (WRITES, 0, Some("list 3 saved")),
    (WRITES, 0, Some("a list without a value saved")),
    (WRITES, 0, Some("another list saved")),
    (WRITES, 8, Some("1010h")),
    (WRITES, 18, Some("store lent")),
    (WRITES, 18, Some("2,048 records")),
    (WRITES, 18, Some("16,384 bytes")),
    (WRITES, 18, Some("several causes")),
];

const COUNT: [Goal; 14] = [
    (COUNTS, 0, Some("no mapping")),
    (COUNTS, 0, Some("a count of 0")),
    (COUNTS, 0, Some("the limit 1F98h/1")),
    (COUNTS, 0, Some("the limit 1F98h/2")),
    (COUNTS, 0, Some("the limit of 1,490 bytes")),
    (COUNTS, 1, None),
    (COUNTS, 3, Some("a count of what is not there")),
    (COUNTS, 3, Some("a count of a Variable")),
    (COUNTS, 3, Some("a count of a Record")),
    (COUNTS, 10, Some("too few elements")),
    (COUNTS, 10, Some("an element of another type")),
    (COUNTS, 11, Some("the limit 1F98h/1")),
    (COUNTS, 11, Some("the limit 1F98h/2")),
    (COUNTS, 11, Some("the limit of 1,490 bytes")),
];

const RESTORE: [Goal; 12] = [
    (RESTORES, 0, Some("first above last")),
    (RESTORES, 0, Some("nothing put")),
    (RESTORES, 0, Some("stored")),
    (RESTORES, 0, Some("stored, types changed")),
    (RESTORES, 0, Some("stored and defaults")),
    (RESTORES, 0, Some("stored and defaults, types changed")),
    (RESTORES, 0, Some("defaults")),
    (RESTORES, 0, Some("defaults, types changed")),
    (RESTORES, 1, None),
    (RESTORES, 13, Some("stored")),
    (RESTORES, 13, Some("default")),
    (RESTORES, 13, Some("stored and default")),
];

/// What only a run reaches: the stored histories are never changed, and their store is short.
const UNSTORED: [Goal; 9] = [
    (WRITES, 5, Some("a Variable's count")),
    (WRITES, 7, Some("1011h, sub-index 0")),
    (WRITES, 11, Some("the limit of 1,490 bytes")),
    (WRITES, 18, Some("2,048 records")),
    (WRITES, 18, Some("16,384 bytes")),
    (WRITES, 18, Some("several causes")),
    (COUNTS, 11, Some("the limit 1F98h/2")),
    (COUNTS, 11, Some("the limit of 1,490 bytes")),
    (RESTORES, 13, Some("stored and default")),
];

/// The rules of a readable image, of which one changed byte can break each in a short store.
pub const IMAGES: [&str; 9] = [
    "over 2,048 records",
    "records past the store",
    "over 16,384 bytes",
    "bodies past the store",
    "places that do not rise",
    "a start that is not the end before it",
    "no such type",
    "a value that does not decode",
    "a value longer than its type",
];

/// What else a restore finds.
const RESTORED: [&str; 8] = [
    "no store",
    "an empty table",
    "a table",
    "a default of another type left",
    "a number over a string",
    "a string shorter than its room",
    "1003h left",
    "a record without its place",
];

/// The refusals, and each way to come to them.
const EXPLAIN_REFUSALS: [Goal; 8] = [
    (EXPLAINS, 1, None),
    (EXPLAINS, 3, Some("no mapping")),
    (EXPLAINS, 3, Some("a Variable")),
    (EXPLAINS, 4, Some("element 0")),
    (EXPLAINS, 4, Some("behind the last")),
    (EXPLAINS, 4, Some("element 255")),
    (EXPLAINS, 12, Some("none")),
    (EXPLAINS, 12, Some("too few")),
];

/// What of the explanation was not reached.
pub fn explanations_lacking(tally: &Tally) -> Vec<String> {
    let verdicts = VERDICTS.map(|verdict| (EXPLAINS, 0, Some(verdict_name(verdict))));
    let lent = tally.not_noted(EXPLAINS, &["just enough lent", "more lent"]);
    let there = tally.not_noted(EXPLAINS, &THERE);
    [tally.missed(&EXPLAIN_REFUSALS), tally.missed(&verdicts), there, lent, lacking_named(tally)]
        .concat()
}

/// The faults of which no named element was explained; the stored histories are held against it
/// too.
pub fn lacking_named(tally: &Tally) -> Vec<String> {
    let faults = VERDICTS[1..].iter().map(|fault| answer_name(*fault));
    let missed = faults.filter(|fault| tally.noted(EXPLAINS, fault) == 0);
    missed
        .map(|fault| format!("no explained element was one that a check named for {fault}"))
        .collect()
}
