//! Random calls that a line can say, and the lines of them.

use super::lines::{Lines, STORE_BYTES, sayable};
use crate::dictionary::generators::calls;
use crate::dictionary::generators::dictionaries::image_length;
use crate::dictionary::generators::objects::{self, Pool, Sizes};
use crate::dictionary::generators::writes;
use crate::dictionary::model::insertion::Insertion;
use crate::dictionary::model::layout::Object;
use crate::dictionary::model::step::Call;
use crate::random::Random;

pub const SMALL: Sizes = Sizes { longest: 6, elements: 3 };

/// Longer data would make a line long and say nothing more.
const LONGEST_DATA: usize = 40;

/// A read, a name to find, the configured nodes or a counter, at places of the objects and others.
pub fn any_call(lines: &mut Lines, random: &mut Random, objects: &[Object]) {
    lines.call(until(|| Some(calls::any(random, objects)).filter(sayable)));
}

/// Each of these, and an insertion.
pub fn each_call(lines: &mut Lines, random: &mut Random, objects: &[Object]) {
    let made = until(|| {
        let calls = calls::each(random, objects);
        calls.iter().all(sayable).then_some(calls)
    });
    made.into_iter().for_each(|call| lines.call(call));
    let pool = Pool::new(random, 2);
    lines.insert(&objects::object(random, &pool, SMALL));
}

/// Repeats what is random until it gives something.
pub fn until<T>(mut attempt: impl FnMut() -> Option<T>) -> T {
    (0..1_000_000).find_map(|_| attempt()).expect("it comes up among a million")
}

/// A line of it is not long.
pub fn is_short(call: &Call) -> bool {
    sayable(call) && !matches!(call, Call::Write(given) if given.data.len() > LONGEST_DATA)
}

pub fn any_write(lines: &mut Lines, random: &mut Random, objects: &[Object]) {
    lines.call(until(|| Some(writes::any(random, objects)).filter(is_short)));
}

/// A store that is long enough most times.
pub fn any_store(random: &mut Random, objects: &[Object]) -> usize {
    let exact = image_length(objects, 1).min(STORE_BYTES);
    random.pick(&[STORE_BYTES, STORE_BYTES, exact, exact - 1, 1])
}

pub fn insert_all(lines: &mut Lines, objects: &[Object]) {
    lines.begin();
    for object in objects {
        let call = Call::Insert(Insertion::of(object));
        if sayable(&call) {
            lines.call(call);
        }
    }
}
