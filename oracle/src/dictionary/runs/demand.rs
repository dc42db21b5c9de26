//! Demand 3 (RULES.md R12.4 to R12.7, R12.9), asked of payloads: what the check answers must be
//! what they show. Nothing here knows how the check comes to its answer.

use super::admission::elements;
use super::asking::{Case, Plan, plan};
use super::shrink::smallest;
use super::trial::{Trial, changed};
use super::whole::{Shown, shown};
use crate::dictionary::generators::calls;
use crate::dictionary::generators::checks;
use crate::dictionary::generators::counts;
use crate::dictionary::generators::fields;
use crate::dictionary::generators::payloads;
use crate::dictionary::generators::ranges;
use crate::dictionary::generators::writes;
use crate::dictionary::link::Given;
use crate::dictionary::model::edition::{FIRST, SECOND};
use crate::dictionary::model::insertion::Insertion;
use crate::dictionary::model::layout::{self, Object, is_mapping};
use crate::dictionary::model::memory::{Lent, Memory};
use crate::dictionary::model::step::{Call, History, Step, Write};
use crate::dictionary::shown::show;
use crate::dictionary::shown::tally::Tally;
use crate::random::Random;
use std::collections::BTreeMap;
use std::time::Duration;

const CHANNELS: [u8; 4] = [0, 1, 2, 3];
const DICTIONARIES: usize = 26_000;
const DICTIONARIES_OF_EDITION_2: usize = 16_000;

/// So many dictionaries are asked about at one go.
const BATCH: usize = 40;

const LEAST_CHANNELS: u64 = 100_000;
const LEAST_LASTING: u64 = 10_000;

/// Of edition 2, with what only its counts bring about.
const LEAST_OF_EDITION_2: [(&str, u64); 7] = [
    ("channels", 60_000),
    (CUT, 15_000),
    ("passes that lasted", 5_000),
    (LASTED_OVER[0].2, 500),
    (LASTED_OVER[1].2, 200),
    (ENDED, 500),
    (HELD_NO_LONGER, 20),
];

/// What is noted of counts.
const CUT: &str = "channels with elements that are not in use";
const ENDED: &str = "passes that another count ended";
const HELD_NO_LONGER: &str = "ended passes after which a payload was not written whole";

/// Of passes that lasted: the lists whose count was written, and whether it became another.
const LASTED_OVER: [(u16, bool, &str); 2] = [
    (0x1600, false, "passes that lasted over their own count again"),
    (0x1A00, true, "passes that lasted over another count of 1A00h+i"),
];

/// Of one sort of parting.
const LONGEST_SHRINKING: Duration = Duration::from_secs(15);

/// What the tally counts under.
const DEMAND: &str = "demand 3";
const HOLDS: &str = "every payload is written whole";
const PARTINGS: &str = "check and payloads part";

/// One case of each sort in which the check and the payloads part.
type Partings = BTreeMap<&'static str, Case>;

pub fn compare(trial: &mut Trial, random: &mut Random) {
    compare_edition(trial, random, FIRST, DICTIONARIES);
    trial.demand(lacking);
}

pub fn compare_second(trial: &mut Trial, random: &mut Random) {
    compare_edition(trial, random, SECOND, DICTIONARIES_OF_EDITION_2);
    trial.demand(lacking_of_second);
}

fn compare_edition(trial: &mut Trial, random: &mut Random, edition: u64, dictionaries: usize) {
    let mut partings = Partings::new();
    for _ in 0..dictionaries / BATCH {
        let cases: Vec<Case> = (0..BATCH).map(|_| fresh(random, edition)).collect();
        let passed = ask(trial, &cases, &mut partings);
        let passing = cases.into_iter().zip(passed).filter(|(_, channels)| !channels.is_empty());
        let lasting: Vec<Case> =
            passing.map(|(case, channels)| later(random, case, channels)).collect();
        ask(trial, &lasting, &mut partings);
    }
    for case in partings.values() {
        report(trial, case);
    }
}

/// A run with fewer fails.
fn lacking(tally: &Tally) -> Vec<String> {
    fewer(tally, &[("channels", LEAST_CHANNELS), ("passes that lasted", LEAST_LASTING)])
}

fn lacking_of_second(tally: &Tally) -> Vec<String> {
    fewer(tally, &LEAST_OF_EDITION_2)
}

fn fewer(tally: &Tally, least: &[(&str, u64)]) -> Vec<String> {
    let few = least.iter().filter(|(note, least)| tally.noted(DEMAND, note) < *least);
    few.map(|(note, least)| format!("{DEMAND}, fewer than {least} {note}")).collect()
}

fn fresh(random: &mut Random, edition: u64) -> Case {
    let mut objects = fields::dictionary(random, 4);
    // The check looks at no range, and what it passes is stored also outside of one.
    if random.below(4) == 0 {
        ranges::give(random, &mut objects);
    }
    if edition == SECOND {
        objects = counts::sent(random, objects);
        counts::give(random, &mut objects);
    }
    Case { edition, objects, calls: Vec::new(), channels: CHANNELS.to_vec(), seed: random.word() }
}

fn later(random: &mut Random, case: Case, channels: Vec<u8>) -> Case {
    let count = 1 + random.below(5);
    let calls = (0..count).map(|_| match case.edition {
        SECOND if random.below(2) == 0 => counts::write(random, &case.objects),
        _ => keeping(random, &case.objects),
    });
    let calls = calls.collect();
    Case { calls, channels, seed: random.word(), ..case }
}

/// Any call that restores nothing.
fn keeping(random: &mut Random, objects: &[Object]) -> Call {
    match random.below(10) {
        0 | 1 => Call::Insert(Insertion::of(&another(random, objects))),
        2 | 3 => writes::any(random, objects),
        // Another channel may take the sender.
        4 => {
            let record = 0x1400 + random.below(4) as u16;
            writes::write(record, 1, 5, &[random.pick(&[0, 5, 6, 240, 255])])
        }
        5 => calls::any(random, objects),
        6 => payloads::error_bit(random),
        7 => checks::any(random, objects),
        _ => payloads::any(random, objects),
    }
}

/// An object of another such dictionary, at an index that is free if it has one.
fn another(random: &mut Random, objects: &[Object]) -> Object {
    let mut others = fields::dictionary(random, 2);
    let taken = |index: u64| objects.iter().any(|object| object.index == index);
    let free = others.iter().position(|other| !taken(other.index));
    others.swap_remove(free.unwrap_or(0))
}

/// The channels of each case that pass.
fn ask(trial: &mut Trial, cases: &[Case], partings: &mut Partings) -> Vec<Vec<u8>> {
    let plans: Vec<Plan> = cases.iter().map(plan).collect();
    let histories: Vec<History> = plans.iter().map(|plan| plan.history.clone()).collect();
    let watched = trial.watched(&histories);
    let mut passed = Vec::new();
    for ((case, plan), given) in cases.iter().zip(&plans).zip(&watched) {
        let seen = Seen::of(case, plan, given);
        passed.push(seen.passed(case));
        let parted = seen.partings(case, trial.tally());
        trial.differ(parted.len() as u64);
        for what in parted {
            trial.tally().note(DEMAND, PARTINGS, 1);
            partings.entry(what).or_insert_with(|| case.clone());
        }
    }
    passed
}

/// What the port answered, and what it made of the payloads.
struct Seen<'a> {
    /// A channel's answer and element.
    checks: Vec<(u64, u64)>,
    /// The mappings whose counts were then written, and whether they became others.
    counts: Vec<(u16, bool)>,
    payloads: Vec<Shown<'a>>,
    ended: &'a [u8],
}

impl<'a> Seen<'a> {
    fn of(case: &'a Case, plan: &'a Plan, given: &[Given]) -> Self {
        let checks = given.iter().take(case.channels.len());
        let checks = checks.map(|given| (given.outcome.answer, given.outcome.numbers[0]));
        let mut seen =
            Self { checks: checks.collect(), counts: vec![], payloads: vec![], ended: &plan.ended };
        let mut memory = Memory::filled(plan.history.first.lengths, 0);
        let mut given = given.iter();
        let mut asked = plan.asked.iter();
        let mut others = case.channels.len() + case.calls.len();
        for step in &plan.history.steps {
            match step {
                Step::Lay(objects) => layout::lay(FIRST, objects, &mut memory),
                Step::Put { slice, at, cell } => memory.put(*slice, *at, *cell),
                _ => {}
            }
            let Step::Call(call) = step else { continue };
            let Some(given) = given.next() else { break };
            let before = memory.clone();
            memory = changed(memory, given);
            if others > 0 {
                others -= 1;
                seen.counts.extend(count_of(call, given));
                continue;
            }
            let asked = asked.next().expect("there is one for each payload");
            seen.payloads.push(shown(asked, &before, &memory, given));
        }
        seen
    }

    fn passed(&self, case: &Case) -> Vec<u8> {
        let answers = case.channels.iter().zip(&self.checks);
        answers.filter(|(_, check)| check.0 == 0).map(|(channel, _)| *channel).collect()
    }

    fn of_channel(&self, channel: u8) -> impl Iterator<Item = &Shown<'a>> {
        self.payloads.iter().filter(move |shown| shown.asked.channel == channel)
    }

    /// Where the check and the payloads part.
    fn partings(&self, case: &Case, tally: &mut Tally) -> Vec<&'static str> {
        let checks = case.channels.iter().zip(&self.checks);
        let partings =
            checks.filter_map(|(channel, (answer, element))| match case.calls.is_empty() {
                true => self.parting(case, *channel, *answer, *element, tally),
                false => self.later_parting(*channel, *answer, tally),
            });
        partings.collect()
    }

    /// At the moment of the check.
    fn parting(
        &self,
        case: &Case,
        channel: u8,
        answer: u64,
        element: u64,
        tally: &mut Tally,
    ) -> Option<&'static str> {
        let payloads = self.of_channel(channel).count();
        let elements = |edition: u64| elements(edition, &case.objects, channel).len();
        let lack = match payloads {
            _ if elements(case.edition) == 0 => Some("no element"),
            0 => Some("no payload is admitted"),
            _ => self.of_channel(channel).find_map(|shown| shown.breach),
        };
        tally.note(DEMAND, "channels", 1);
        if elements(case.edition) < elements(FIRST) {
            tally.note(DEMAND, CUT, 1);
        }
        tally.note(DEMAND, "payloads", payloads as u64);
        tally.note(DEMAND, lack.unwrap_or(HOLDS), 1);
        let names = |shown: &Shown| shown.written.iter().any(|place| 1 + *place as u64 == element);
        match (answer, lack) {
            (0, lack) => lack,
            (2.., None) => Some(HOLDS),
            // R12.7.
            _ => self.of_channel(channel).any(names).then_some("the named element is written"),
        }
    }

    /// After calls that let a pass last.
    fn later_parting(&self, channel: u8, answer: u64, tally: &mut Tally) -> Option<&'static str> {
        let payloads = self.of_channel(channel).count();
        if answer != 0 || payloads == 0 {
            return None;
        }
        let breach = self.of_channel(channel).find_map(|shown| shown.breach);
        if self.ended.contains(&channel) {
            tally.note(DEMAND, ENDED, 1);
            tally.note(DEMAND, HELD_NO_LONGER, breach.is_some().into());
            return None;
        }
        tally.note(DEMAND, "passes that lasted", 1);
        tally.note(DEMAND, "later payloads", payloads as u64);
        for (lists, is_other, note) in LASTED_OVER {
            if self.counts.contains(&(lists + u16::from(channel), is_other)) {
                tally.note(DEMAND, note, 1);
            }
        }
        breach
    }
}

/// The mapping whose count a call wrote, and whether it became another.
fn count_of(call: &Call, given: &Given) -> Option<(u16, bool)> {
    let Call::Write(Write { index, sub_index: 0, .. }) = call else { return None };
    let is_taken = is_mapping(*index) && given.outcome.answer == 0;
    is_taken.then(|| (*index, !given.changes.is_empty()))
}

/// Prints a smallest case that still parts.
fn report(trial: &mut Trial, case: &Case) {
    let mut steps = Step::laying(case.edition, &case.objects);
    steps.extend(case.calls.iter().cloned().map(Step::Call));
    let history = History { first: Lent { at_start: false, lengths: [0; 4], store: 0 }, steps };
    let history = smallest(history, LONGEST_SHRINKING, &mut |history| {
        let parted = !asked_again(trial, history, case.seed).is_empty();
        parted.then(|| history.steps.len() - 1)
    });
    println!("differs: {DEMAND}, {PARTINGS}");
    show::steps(&history.steps);
    asked_again(trial, &history, case.seed).iter().for_each(|line| println!("    {line}"));
}

/// What is to be said of a case that parts; none where it does not.
fn asked_again(trial: &mut Trial, history: &History, seed: u64) -> Vec<String> {
    let (objects, calls, channels) = (Vec::new(), Vec::new(), CHANNELS.to_vec());
    let mut case = Case { edition: FIRST, objects, calls, channels, seed };
    for step in &history.steps {
        match step {
            Step::Call(call) => case.calls.push(call.clone()),
            Step::Lay(objects) => case.objects = objects.clone(),
            Step::Put { cell, .. } => case.edition = *cell,
            _ => {}
        }
    }
    let plan = plan(&case);
    let given = trial.alone(&plan.history);
    let seen = Seen::of(&case, &plan, &given);
    let parted = seen.partings(&case, &mut Tally::default());
    if parted.is_empty() {
        return Vec::new();
    }
    let mut lines: Vec<String> = parted.iter().map(|what| format!("payloads: {what}")).collect();
    lines.extend(CHANNELS.iter().zip(&seen.checks).map(|(channel, (answer, element))| {
        format!("channel {channel}: {}, element {element}", show::answer(*answer))
    }));
    let breach = seen.payloads.iter().find(|shown| shown.breach.is_some());
    lines.extend(
        breach.map(|shown| show::call(&Call::ConsumePdoPayload(shown.asked.given.clone()))),
    );
    lines
}
