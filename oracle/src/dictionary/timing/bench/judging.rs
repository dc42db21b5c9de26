//! Times judging, which every call does first, and beside it one read of the memory that is judged:
//! the least that judging can take.

use super::super::times::{count, nanoseconds, ratio};
use super::{LARGEST, Setting, history, missing, port_time, repeats};
use crate::dictionary::generators::objects::using;
use crate::dictionary::link;
use crate::dictionary::model::layout::{Object, Used};
use crate::dictionary::model::step::History;
use crate::port::{Batch, Port};
use crate::random::Random;

/// As in dictionary.c.
const READ_THROUGH: u64 = 5;

/// Objects of a dictionary from which what one of them costs is told.
const MANY: usize = 1000;
const VALUES: usize = 6000;
const NAMES: usize = 32_000;

/// Two names of ten bytes.
const PLAIN: &str = "Drehbuehne";
const UMLAUT: &str = "Drehbühne";

/// Nanoseconds.
#[derive(Clone, Copy)]
struct Judged {
    library: f64,
    read: f64,
}

impl Judged {
    /// Of each of so many things that the one dictionary has and the other has not.
    fn each(self, other: Self, things: usize) -> Self {
        let each = |more: f64, less: f64| (more - less) / things as f64;
        Self { library: each(self.library, other.library), read: each(self.read, other.read) }
    }

    fn least(self, other: Self) -> Self {
        Self { library: self.library.min(other.library), read: self.read.min(other.read) }
    }

    fn row(self, judged: &str) {
        let Self { library, read } = self;
        let times = [nanoseconds(library), nanoseconds(read), ratio(library / read)];
        println!("| {judged} | {} |", times.join(" | "));
    }
}

/// The least times of all rounds, of each dictionary.
#[derive(Default)]
pub struct Judging {
    whole: Vec<(Used, Judged)>,
    parts: Vec<Judged>,
}

impl Judging {
    pub fn round(&mut self, port: &mut Port, random: &mut Random) {
        let mut whole = Vec::new();
        for used in wholes() {
            whole.push((used, judged(port, &using(random, used))));
        }
        let parts: Vec<Judged> = parts(random).iter().map(|part| judged(port, part)).collect();
        if self.parts.is_empty() {
            *self = Self { whole, parts };
            return;
        }
        self.whole.iter_mut().zip(whole).for_each(|(old, (_, new))| old.1 = old.1.least(new));
        self.parts.iter_mut().zip(parts).for_each(|(old, new)| *old = old.least(new));
    }

    pub fn print(&self) {
        println!("| judging | library, ns | a read of the memory, ns | ratio |");
        println!("|---|---|---|---|");
        for (Used { objects, values, bytes }, judged) in &self.whole {
            let [objects, values, bytes] = [*objects, *values, *bytes].map(count);
            judged.row(&format!("{objects} objects, {values} values, {bytes} bytes"));
        }
        let [bare, named, valued, plain, umlaut] = self.parts[..] else {
            unreachable!("there are five");
        };
        let nothing = Judged { library: 0.0, read: 0.0 };
        bare.each(nothing, MANY).row("an object without a name");
        plain.each(nothing, MANY).row("an object with a name of 10 bytes");
        umlaut.each(nothing, MANY).row("the same with an umlaut in the name");
        valued.each(bare, VALUES).row("a value");
        named.each(bare, NAMES).row("a byte of a name");
    }
}

fn wholes() -> [Used; 4] {
    let used = |objects| Used { objects, values: 4 * objects, bytes: 20 * objects };
    [used(20), used(200), used(1000), LARGEST]
}

/// Many objects, these with names, with values, and with names of ten bytes.
fn parts(random: &mut Random) -> [Vec<Object>; 5] {
    let mut using = |values, bytes| using(random, Used { objects: MANY, values, bytes });
    let bare = using(0, 0);
    let with = |name: &str| {
        let name = name.as_bytes();
        bare.iter().map(|object| Object { name: name.to_vec(), ..object.clone() }).collect()
    };
    [with(""), using(0, NAMES), using(VALUES, 0), with(PLAIN), with(UMLAUT)]
}

fn judged(port: &mut Port, objects: &[Object]) -> Judged {
    let setting = Setting { objects: objects.to_vec(), records: Vec::new() };
    let library = port_time(port, &setting, &missing());
    let history = history(&setting);
    let few = read_through(port, &history, 3);
    Judged { library, read: read_through(port, &history, repeats(few) as u64) }
}

/// Nanoseconds of one read of the four slices, as far as the dictionary uses them.
fn read_through(port: &mut Port, history: &History, repeats: u64) -> f64 {
    let mut words = link::commands(history);
    words.extend([READ_THROUGH, repeats]);
    port.send(Batch::Dictionary, &words).expect("it takes a batch");
    link::fetched(port, history.first).expect("it hands over its memory");
    let times = port.words(2).expect("it answers");
    times[1] as f64 / repeats as f64
}
