//! Stored histories of memory that is changed without a call.

use super::lines::{LENT, Lines};
use super::said::{SMALL, any_call, each_call, until};
use crate::dictionary::generators::cells::{Cell, cells, other};
use crate::dictionary::generators::objects::{self, Pool};
use crate::dictionary::model::edition::SECOND;
use crate::dictionary::model::layout::*;
use crate::dictionary::model::malformed;
use crate::dictionary::model::memory::{EDITION, KEPT, ROW};
use crate::inputs::text;
use crate::original::{KINDS, VISIBLE_STRING};
use crate::random::Random;

/// The rules of R5.9 that one changed cell can break where the slices have
/// these lengths. The words are short only where the slots are.
const RULES: [&str; 30] = [
    "edition",
    "header's zeros",
    "1,024 objects",
    "6,144 values",
    "32,768 bytes",
    "objects short",
    "slots short",
    "bytes short",
    "index",
    "kind",
    "access",
    "a Variable's count",
    "254 elements",
    "name's length",
    "default's mark",
    "ends of no range",
    "index order",
    "first slot",
    "values' total",
    "type",
    "room",
    "default's room",
    "number over its size",
    "length over the room",
    "odd length",
    "name's start",
    "room's start",
    "bytes' total",
    "name not UTF-8",
    "text not UTF-8",
];

/// Each rule broken by one cell, every call on what is then no dictionary, and the cell mended.
pub fn each_rule(lines: &mut Lines, random: &mut Random) {
    lines.begin();
    rich(random).iter().for_each(|object| lines.insert(object));
    let objects = lines.objects();
    for rule in RULES {
        let (Cell { slice, at, old }, new) = change(lines, random, Err(rule));
        lines.put(slice, at, new);
        each_call(lines, random, &objects);
        lines.put(slice, at, old);
        any_call(lines, random, &objects);
    }
    // A new dictionary can be had from anything.
    lines.put(0, 3, 0);
    any_call(lines, random, &objects);
    lines.begin();
    any_call(lines, random, &objects);
}

/// Every type, strings that are not empty, a default and a Variable: something for each rule.
fn rich(random: &mut Random) -> [Object; 3] {
    let mut some =
        |kind| until(|| Some(objects::value_of(random, kind, 6)).filter(|value| value.word > 0));
    let values = (0..KINDS).map(&mut some).collect();
    let variable = vec![some(VISIBLE_STRING)];
    let index = 0x2000;
    let name = text(random, 9);
    let default = Some(Value::new(VISIBLE_STRING, 4, b"text"));
    [
        Object { access: 3, name: name.clone(), default, ..bare(index, LAST_SHAPE, values) },
        Object { access: 0, name, ..bare(0x1FFF, VARIABLE, variable) },
        bare(0, ARRAY, vec![]),
    ]
}

/// A cell that is used and something else for it, after which memory is judged so.
fn change(lines: &Lines, random: &mut Random, verdict: Result<(), &'static str>) -> (Cell, u64) {
    let mut memory = lines.memory().clone();
    let mut cells = cells(&lines.objects());
    let (place, new) = until(|| {
        let place = random.below(cells.len());
        let cell = &cells[place];
        let new = other(random, cell);
        memory.put(cell.slice, cell.at, new);
        let judged = malformed::judge(&memory);
        memory.put(cell.slice, cell.at, cell.old);
        let is_another = new != cell.old && !is_of_edition_2(cell, new);
        (judged == verdict && is_another).then_some((place, new))
    });
    (cells.swap_remove(place), new)
}

/// These histories stay in edition 1, which looks at no kept count.
fn is_of_edition_2(cell: &Cell, new: u64) -> bool {
    let is_kept = cell.at >= ROW && cell.at % ROW == KEPT;
    cell.slice == 0 && (is_kept || cell.at == EDITION && new == SECOND)
}

/// Changes after which memory is still a dictionary: another value, name, access
/// or index; bytes in a room behind its value; anything behind what is used.
pub fn unseen(lines: &mut Lines, random: &mut Random) {
    for _ in 0..3 {
        lines.begin();
        let pool = Pool::new(random, 8);
        let five = |lines: &mut Lines, random: &mut Random| {
            (0..5).for_each(|_| lines.insert(&objects::object(random, &pool, SMALL)));
        };
        five(lines, random);
        for _ in 0..8 {
            let (Cell { slice, at, .. }, new) = change(lines, random, Ok(()));
            lines.put(slice, at, new);
            behind(lines, random);
            let objects = lines.objects();
            (0..3).for_each(|_| any_call(lines, random, &objects));
        }
        five(lines, random);
    }
}

/// Insertion writes over it where it needs room, and else leaves it.
fn behind(lines: &mut Lines, random: &mut Random) {
    let slice = random.below(LENT.len());
    let used = Used::of(&lines.objects()).lengths()[slice];
    let at = used + random.below((LENT[slice] - used).min(20));
    lines.put(slice, at, random.pick(&[0xFF, 1, 0x80]));
}
