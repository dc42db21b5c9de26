//! The dictionary: histories of calls, and damaged memory.

mod generators;
mod link;
mod model;
mod runs;
mod shown;
mod stored;
mod timing;

use crate::port::Port;
use crate::random::Random;
use runs::{
    bounds, consumed, counts, demand, edition_goals, editions, faults, goals, halves, histories,
    images, malice, no_values, ranged, restored, rooms, saves, trial, written,
};

/// Gives the comparisons and the differences.
pub fn compare(port: &mut Port, random: &mut Random) -> (u64, u64) {
    let mut trial = trial::Trial::new(port);
    histories::compare(&mut trial, random);
    written::compare(&mut trial, random);
    saves::compare(&mut trial, random);
    restored::compare(&mut trial, random);
    images::compare(&mut trial, random);
    rooms::compare(&mut trial, random);
    consumed::compare(&mut trial, random);
    bounds::compare(&mut trial, random);
    halves::compare(&mut trial, random);
    malice::compare(&mut trial, random);
    no_values::compare(&mut trial, random);
    ranged::compare(&mut trial, random);
    trial.demand(goals::lacking);
    trial.finish("the dictionary's answers")
}

/// The same, of the channel check.
pub fn compare_checks(port: &mut Port, random: &mut Random) -> (u64, u64) {
    let mut trial = trial::Trial::new(port);
    faults::compare(&mut trial, random);
    demand::compare(&mut trial, random);
    trial.finish("answers about channels")
}

/// The same of both, in edition 2.
pub fn compare_edition_2(port: &mut Port, random: &mut Random) -> (u64, u64) {
    let mut trial = trial::Trial::new(port);
    counts::compare(&mut trial, random);
    editions::compare(&mut trial, random);
    demand::compare_second(&mut trial, random);
    trial.demand(edition_goals::lacking);
    trial.finish("answers in edition 2")
}

/// Prints the histories that crates/cases replays.
pub fn print_stored() {
    stored::histories::print();
}

/// Prints those of them that have a store.
pub fn print_stores() {
    stored::stores::print();
}

/// Prints those that consume payloads.
pub fn print_payloads() {
    stored::received::print();
}

/// Prints those that check channels.
pub fn print_checks() {
    stored::verdicts::print();
}

/// Prints how long calls take, in the port and in the Rust.
pub fn bench(port: &mut Port, random: &mut Random) {
    timing::bench::print(port, random);
}
