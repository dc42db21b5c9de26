//! How often each answer of each call was reached, and by which part of its rule.

use crate::dictionary::model::answers::answer_name;
use crate::dictionary::model::world::Wanted;
use std::collections::BTreeMap;

/// An answer of a call, by a part of its rule or, without one, by any.
pub type Goal = (&'static str, u64, Option<&'static str>);

#[derive(Default)]
pub struct Tally {
    answers: BTreeMap<&'static str, BTreeMap<u64, u64>>,
    causes: BTreeMap<(&'static str, u64), BTreeMap<&'static str, u64>>,
    notes: BTreeMap<&'static str, BTreeMap<&'static str, u64>>,
}

impl Tally {
    pub fn count(&mut self, call: &'static str, wanted: &Wanted) {
        let answer = wanted.outcome.answer;
        *self.answers.entry(call).or_default().entry(answer).or_default() += 1;
        if let Some(cause) = wanted.cause {
            // Every call judges alike, so its causes are counted together.
            let call = if answer == 1 { "every call" } else { call };
            *self.causes.entry((call, answer)).or_default().entry(cause).or_default() += 1;
        }
        for note in &wanted.notes {
            *self.notes.entry(call).or_default().entry(note).or_default() += 1;
        }
    }

    /// Counts what no call came upon by itself.
    pub fn note(&mut self, of: &'static str, note: &'static str, times: u64) {
        *self.notes.entry(of).or_default().entry(note).or_default() += times;
    }

    fn reached(&self, (call, answer, cause): Goal) -> bool {
        match cause {
            Some(cause) => {
                self.causes.get(&(call, answer)).is_some_and(|causes| causes.contains_key(cause))
            }
            None => self.answers.get(call).is_some_and(|answers| answers.contains_key(&answer)),
        }
    }

    /// Says of each answer that was not reached that it was not.
    pub fn missed(&self, goals: &[Goal]) -> Vec<String> {
        let missed = goals.iter().filter(|goal| !self.reached(**goal));
        let said = missed.map(|(call, answer, cause)| {
            let by = cause.map_or(String::new(), |cause| format!(" because of: {cause}"));
            format!("no call of {call} gave {}{by}", answer_name(*answer))
        });
        said.collect()
    }

    /// The same of what calls must find besides.
    pub fn not_noted(&self, call: &str, notes: &[&str]) -> Vec<String> {
        let missed = notes.iter().filter(|note| self.noted(call, note) == 0);
        missed.map(|note| format!("no call of {call} came upon: {note}")).collect()
    }

    /// How often a call found this besides.
    pub fn noted(&self, call: &str, note: &str) -> u64 {
        self.notes.get(call).and_then(|notes| notes.get(note)).copied().unwrap_or(0)
    }

    pub fn print(&self) {
        for (call, answers) in &self.answers {
            let counts = answers.iter().map(|(answer, count)| (answer_name(*answer), count));
            println!("    {call:23} {}", line(counts));
        }
        for ((call, answer), causes) in &self.causes {
            let counts = causes.iter().map(|(cause, count)| (*cause, count));
            println!("    {call}, {}: {}", answer_name(*answer), line(counts));
        }
        for (call, notes) in &self.notes {
            let counts = notes.iter().map(|(note, count)| (*note, count));
            println!("    {call}, of these: {}", line(counts));
        }
    }
}

fn line<'a>(counts: impl Iterator<Item = (&'static str, &'a u64)>) -> String {
    counts.map(|(name, count)| format!("{name} {count}")).collect::<Vec<String>>().join(", ")
}
