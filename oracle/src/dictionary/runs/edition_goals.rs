//! What a run in edition 2 must reach: every answer that its rules give, each way to come to it, and
//! what the Rust cannot say.

use super::consumed;
use super::faults;
use super::goals;
use crate::dictionary::model::checked::{NONE_IN_USE, NOTES as CHECKED};
use crate::dictionary::model::consuming::{AIMS_AT_UNUSED, AS_THE_RUST};
use crate::dictionary::model::counted::{
    ARRAY_KEPT, KEPT_AS, NOT_KEPT, READ as COUNTS_READ, RECORD_KEPT, STAYS_OFF,
};
use crate::dictionary::model::explained::UNUSED as EXPLAINED;
use crate::dictionary::model::malformed::KEPT_TOO_MANY;
use crate::dictionary::model::marking::{
    CUT, MARKED, OTHER_COUNT, TURNED_OFF, UNUSED_PUT, UNUSED_STOPS,
};
use crate::dictionary::model::unused;
use crate::dictionary::shown::tally::{Goal, Tally};

const WRITES: &str = "write";
const RESTORES: &str = "restore_power_on_values";
const CONSUME: &str = "consume_pdo_payload";
const CYCLE: &str = "consume_cycle";
const CHECK: &str = "check";
const CHECK_ALL: &str = "check_all";
const EVERY: &str = "every call";

/// Payloads of lists that are cut in which the Rust was asked.
const LEAST_AS_THE_RUST: u64 = 50_000;

pub fn lacking(tally: &Tally) -> Vec<String> {
    let damaged: Vec<Goal> =
        KEPT_TOO_MANY.concat().into_iter().map(|rule| (EVERY, 1, Some(rule))).collect();
    let refused = NOT_KEPT.map(|(_, note)| note);
    let of_writes = [&KEPT_AS[..], &refused, &[STAYS_OFF], &unused::WRITTEN].concat();
    let of_writes = [&of_writes[..], &[unused::OUTSIDE, unused::SAVED]].concat();
    let of_restores = [&unused::RESTORED[..], &[unused::COUNT_LEFT]].concat();
    let of_payloads = [&PAYLOADS[..], &MARKED].concat();
    let mut lacking = [tally.missed(&ANSWERS), tally.missed(&damaged)].concat();
    lacking.extend(tally.not_noted(WRITES, &of_writes));
    lacking.extend(tally.not_noted(RESTORES, &of_restores));
    lacking.extend([CONSUME, CYCLE].map(|call| tally.not_noted(call, &of_payloads)).concat());
    lacking.extend([CHECK, CHECK_ALL].map(|call| tally.not_noted(call, &CHECKED)).concat());
    lacking.extend(tally.not_noted(CHECK_ALL, &[NONE_IN_USE]));
    lacking.extend(tally.not_noted("explain", &EXPLAINED));
    lacking.extend(tally.not_noted("read", &[&COUNTS_READ[..], &[unused::READ]].concat()));
    lacking.extend(tally.not_noted("read_u8", &COUNTS_READ));
    lacking.extend(tally.not_noted("read_u64", &[unused::READ]));
    lacking.extend(tally.not_noted("increment_counter", &[unused::COUNTED_UP, unused::LEFT]));
    lacking.extend(too_few(tally));
    lacking.extend(consumed::outcomes_not_reached(tally));
    lacking.extend(faults::lacking(tally));
    lacking.extend(goals::explanations_lacking(tally));
    lacking
}

fn too_few(tally: &Tally) -> Option<String> {
    let asked = tally.noted(CONSUME, AS_THE_RUST) + tally.noted(CYCLE, AS_THE_RUST);
    (asked < LEAST_AS_THE_RUST)
        .then(|| format!("{asked} payloads held against the Rust with a cut list are too few"))
}

/// Each answer of `new` and of a count that is written, and each way to come to it.
const ANSWERS: [Goal; 24] = [
    ("new", 0, Some("edition 1")),
    ("new", 0, Some("edition 2")),
    (EVERY, 1, Some("no such edition")),
    (EVERY, 1, Some("edition")),
    ("new", 17, Some("objects lent")),
    (WRITES, 0, Some(ARRAY_KEPT)),
    (WRITES, 0, Some(RECORD_KEPT)),
    (WRITES, 0, Some("a Variable's count put")),
    (WRITES, 3, Some("a count of what is not there")),
    (WRITES, 3, Some("a count of a Variable")),
    (WRITES, 3, Some("a count of a Record")),
    (WRITES, 3, Some("a count of 0")),
    (WRITES, 5, Some("a count of another type")),
    (WRITES, 6, Some("a mapping's count")),
    (WRITES, 9, Some("an Unsigned8")),
    (WRITES, 10, Some("too few elements")),
    (WRITES, 10, Some("an element of another type")),
    (WRITES, 11, Some("the limit 1F98h/1")),
    (WRITES, 11, Some("the limit 1F98h/2")),
    (WRITES, 11, Some("the limit of 1,490 bytes")),
    (CHECK, 32, Some(NONE_IN_USE)),
    ("validate_pdo_mapping", 0, Some("the limit 1F98h/2")),
    ("validate_pdo_mapping", 10, Some("too few elements")),
    ("validate_pdo_mapping", 11, Some("the limit 1F98h/1")),
];

/// What payloads must come upon, in both calls.
const PAYLOADS: [&str; 7] =
    [TURNED_OFF, CUT, OTHER_COUNT, UNUSED_PUT, UNUSED_STOPS, AS_THE_RUST, AIMS_AT_UNUSED];
