//! What is asked about a dictionary: the checks of its channels, and payloads that each admits.

use super::admission::{Field, elements, fields};
use super::tried;
use crate::dictionary::model::layout::{self, *};
use crate::dictionary::model::malformed;
use crate::dictionary::model::memory::Lent;
use crate::dictionary::model::step::{Call, History, Received, Step};
use crate::dictionary::model::world::World;
use crate::random::Random;

const UNSIGNED64: u64 = 8;

/// Memory that calls between a check and a payload may use.
const SPARE: [usize; 4] = [36, 18, 6, 40];

/// A dictionary, and calls between the check of its channels and the payloads. Without such calls
/// the check is held against what the payloads show, else a pass against what they show later.
#[derive(Clone)]
pub struct Case {
    pub edition: u64,
    pub objects: Vec<Object>,
    pub calls: Vec<Call>,
    pub channels: Vec<u8>,
    /// Of the payloads.
    pub seed: u64,
}

/// A payload that a channel admits, and the dictionary that it comes to.
pub struct Asked {
    pub channel: u8,
    pub objects: Vec<Object>,
    pub given: Received,
    /// The place of the last word that is run, where others behind it are left out.
    pub upto: Option<usize>,
}

pub struct Plan {
    /// The checks are its first calls, the payloads its last.
    pub history: History,
    pub asked: Vec<Asked>,
    /// The channels of which nothing but the count in use became another.
    pub ended: Vec<u8>,
}

pub fn plan(case: &Case) -> Plan {
    let random = &mut Random::new(case.seed);
    let spare = if case.calls.is_empty() { [0; 4] } else { SPARE };
    let used = Used::of(&case.objects).lengths();
    let lengths = std::array::from_fn(|slice| used[slice] + spare[slice]);
    let first = Lent { at_start: case.seed.is_multiple_of(2), lengths, store: 0 };
    let mut steps = Step::laying(case.edition, &case.objects);
    steps.extend(case.channels.iter().map(|channel| Step::Call(Call::Check(*channel))));
    steps.extend(case.calls.iter().cloned().map(Step::Call));
    let later = left(first, case);
    let kept = case.channels.iter().filter(|channel| keeps(&case.objects, &later, **channel));
    let is_ended =
        |channel: &&u8| count(case, &case.objects, **channel) != count(case, &later, **channel);
    let ended: Vec<u8> = kept.clone().filter(is_ended).copied().collect();
    let asked: Vec<Asked> =
        kept.flat_map(|channel| asked(random, case.edition, &later, *channel)).collect();
    for Asked { objects, given, .. } in &asked {
        steps.extend(Step::laying(case.edition, objects));
        steps.push(Step::Call(Call::ConsumePdoPayload(given.clone())));
    }
    Plan { history: History { first, steps }, asked, ended }
}

/// How many elements of a channel's list are in use.
fn count(case: &Case, objects: &[Object], channel: u8) -> usize {
    elements(case.edition, objects, channel).len()
}

/// The dictionary that the calls leave.
fn left(first: Lent, case: &Case) -> Vec<Object> {
    let mut world = World::new(first);
    Step::laying(case.edition, &case.objects).iter().for_each(|step| world.change(step));
    if malformed::judge(&world.memory).is_err() {
        return Vec::new();
    }
    case.calls.iter().for_each(|call| drop(world.call(call)));
    layout::read_off(&world.memory)
}

/// Whether the channel's records still have their contents (R12.10), but for the count in use.
fn keeps(objects: &[Object], later: &[Object], channel: u8) -> bool {
    [0x1400, 0x1600].into_iter().all(|records| {
        let contents = |objects: &[Object]| {
            let index = records + u64::from(channel);
            let object = objects.iter().find(|object| object.index == index)?;
            Some(object.values.iter().map(Value::encoding).collect::<Vec<Vec<u8>>>())
        };
        contents(objects) == contents(later)
    })
}

/// The payloads that are tried. The first comes once more for each field that a later one
/// overwrites, without the words behind it.
fn asked(random: &mut Random, edition: u64, objects: &[Object], channel: u8) -> Vec<Asked> {
    let tried = tried::payloads(random, edition, objects, channel);
    let mut asked = Vec::new();
    if let Some(given) = tried.first() {
        let fields = fields(elements(edition, objects, channel));
        for field in fields.iter().filter(|field| !stands(field, &fields)) {
            let objects = cut(objects, channel, field.place);
            let given = given.clone();
            asked.push(Asked { channel, objects, given, upto: Some(field.place) });
        }
    }
    let objects = || objects.to_vec();
    asked.extend(tried.into_iter().map(|given| Asked {
        channel,
        objects: objects(),
        given,
        upto: None,
    }));
    asked
}

/// Whether no later field has the same target.
pub fn stands(field: &Field, fields: &[Field]) -> bool {
    let place = |field: &Field| (field.index, field.sub_index);
    !fields.iter().any(|later| later.place > field.place && place(later) == place(field))
}

/// The words behind an element become such as are passed over, in a list that is else the same.
fn cut(objects: &[Object], channel: u8, upto: usize) -> Vec<Object> {
    const MISALIGNED: u64 = 1 << 32;
    let mut objects = objects.to_vec();
    let list = objects.iter_mut().find(|object| object.index == 0x1600 + u64::from(channel));
    let behind = list.into_iter().flat_map(|list| &mut list.values).skip(upto + 1);
    behind.filter(|value| value.kind == UNSIGNED64).for_each(|value| value.word = MISALIGNED);
    objects
}
