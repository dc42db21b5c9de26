//! The cells that a dictionary uses, and what to change them to.

use crate::dictionary::model::edition::FIRST;
use crate::dictionary::model::layout::{self, Object, Used};
use crate::dictionary::model::memory::{BYTES, Memory};
use crate::dictionary::model::step::Step;
use crate::random::Random;

/// Every cell that a dictionary uses, with what it holds.
pub struct Cell {
    pub slice: usize,
    pub at: usize,
    pub old: u64,
}

pub fn cells(objects: &[Object]) -> Vec<Cell> {
    let lengths = Used::of(objects).lengths();
    let mut memory = Memory::filled(lengths, 0);
    layout::lay(FIRST, objects, &mut memory);
    let all = (0..=BYTES).flat_map(|slice| (0..lengths[slice]).map(move |at| (slice, at)));
    all.map(|(slice, at)| Cell { slice, at, old: memory.get(slice, at) }).collect()
}

/// Numbers at a bound of some rule, or equal to the old one in the low bits.
fn other_word(random: &mut Random, old: u64) -> u64 {
    const BOUNDS: [u64; 21] = [
        0, 1, 2, 3, 7, 8, 11, 13, 20, 21, 32, 33, 254, 255, 256, 1024, 1025, 1490, 1491, 65_535,
        65_536,
    ];
    match random.below(9) {
        0 => old.wrapping_add(1),
        1 => old.wrapping_sub(1),
        2 => old ^ 1 << random.below(64),
        3 => old | 1 << random.pick(&[8, 16, 32, 63]),
        // The ends of a fixed type's words, and one past them.
        4 => (1u64 << random.pick(&[8, 16, 32, 48, 63])) - random.word() % 2,
        5 => random.word() >> random.below(64),
        6 => u64::MAX,
        _ => random.pick(&BOUNDS),
    }
}

pub fn other(random: &mut Random, cell: &Cell) -> u64 {
    match cell.slice {
        BYTES => random.pick(&[0x00, 0x7F, 0x80, 0xC2, 0xE0, 0xF4, 0xFF]),
        _ => other_word(random, cell.old),
    }
}

pub fn edit(random: &mut Random, cell: &Cell) -> Step {
    Step::Put { slice: cell.slice, at: cell.at, cell: other(random, cell) }
}

pub fn any_edit(random: &mut Random, cells: &[Cell]) -> Step {
    let place = random.below(cells.len());
    edit(random, &cells[place])
}
