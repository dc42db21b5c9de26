//! Runs histories on the port and holds every call against what is wanted.

use super::shrink::smallest;
use crate::dictionary::link::{self, Given};
use crate::dictionary::model::memory::Memory;
use crate::dictionary::model::step::{Call, History, Step};
use crate::dictionary::model::world::{Wanted, World};
use crate::dictionary::shown::show::{self, Difference};
use crate::dictionary::shown::tally::Tally;
use crate::port::{Batch, LARGEST_BATCH, MOST_STOPS, Port};
use std::collections::BTreeMap;
use std::io::Result;
use std::time::Duration;

/// For all differences together.
const LONGEST_SHRINKING: Duration = Duration::from_secs(60);

/// Words after which the waiting histories are run.
const ENOUGH: usize = 1 << 16;

pub struct Trial<'a> {
    port: &'a mut Port,
    waiting: Vec<History>,
    waiting_words: usize,
    compared: u64,
    differing: u64,
    /// How often the port's program was stopped.
    stops: usize,
    tally: Tally,
    demands: Vec<Demand>,
    /// By the call and its wanted answer; with the words of its commands.
    found: BTreeMap<(&'static str, u64), (usize, History)>,
}

/// What a whole run must reach: it says what was not reached.
pub type Demand = fn(&Tally) -> Vec<String>;

impl<'a> Trial<'a> {
    pub fn new(port: &'a mut Port) -> Self {
        Self {
            port,
            waiting: Vec::new(),
            waiting_words: 0,
            compared: 0,
            differing: 0,
            stops: 0,
            tally: Tally::default(),
            demands: Vec::new(),
            found: BTreeMap::new(),
        }
    }

    /// Is held against the run at its end.
    pub fn demand(&mut self, demand: Demand) {
        self.demands.push(demand);
    }

    pub fn compare(&mut self, history: History) {
        if self.stops > MOST_STOPS {
            return;
        }
        let words = link::commands(&history).len();
        if self.waiting_words + words > LARGEST_BATCH {
            self.run();
        }
        self.waiting_words += words;
        self.waiting.push(history);
        if self.waiting_words > ENOUGH {
            self.run();
        }
    }

    fn run(&mut self) {
        self.waiting_words = 0;
        let histories = std::mem::take(&mut self.waiting);
        self.run_all(&histories, |_| ());
    }

    /// Runs histories at once, each call compared as those of others; gives what the port gave at
    /// each call, up to one that stopped its program. None where it was stopped too often.
    pub fn watched(&mut self, histories: &[History]) -> Vec<Vec<Given>> {
        self.run();
        let mut watched = Vec::new();
        if self.stops > MOST_STOPS {
            return watched;
        }
        self.run_all(histories, |given| watched.push(given));
        watched
    }

    fn run_all(&mut self, histories: &[History], mut watch: impl FnMut(Vec<Given>)) {
        let mut rest = histories;
        while !rest.is_empty() {
            let sent = send(self.port, rest);
            let mut run = 0;
            for history in &rest[..sent] {
                run += 1;
                let mut replay = Replay::new(history);
                let ended = replay.run(self.port, |call, wanted| {
                    self.compared += 1;
                    self.tally.count(call.name(), wanted);
                });
                if let Some(found) = replay.found {
                    self.keep(&found, history);
                }
                watch(replay.given);
                if ended.is_err() {
                    // Those behind it were not run.
                    self.port.restart().expect("the port's program can be started");
                    self.stops += 1;
                    break;
                }
            }
            rest = &rest[run..];
        }
    }

    /// What the port gives to a history that is not counted.
    pub fn alone(&mut self, history: &History) -> Vec<Given> {
        replayed(self.port, history).given
    }

    pub fn tally(&mut self) -> &mut Tally {
        &mut self.tally
    }

    /// Counts differences that were found by what calls give together.
    pub fn differ(&mut self, differences: u64) {
        self.differing += differences;
    }

    /// The shortest history of each sort is kept, since it is the easiest to make smaller.
    fn keep(&mut self, found: &Difference, history: &History) {
        self.differing += 1;
        let sort = (found.call.name(), found.wanted.outcome.answer);
        let words = link::commands(history).len();
        let kept = self.found.get(&sort).map(|(words, _)| *words);
        if kept.is_none_or(|kept| words < kept) {
            self.found.insert(sort, (words, history.clone()));
        }
    }

    /// Prints the differences and how often each answer was reached; gives the
    /// comparisons and the differences.
    pub fn finish(mut self, title: &str) -> (u64, u64) {
        self.run();
        let found = std::mem::take(&mut self.found);
        let time = LONGEST_SHRINKING / found.len().max(1) as u32;
        for (_, history) in found.into_values() {
            let port = &mut *self.port;
            let mut differs = |history: &History| Some(first_difference(port, history)?.step);
            let history = smallest(history, time, &mut differs);
            show::history(&history);
            match first_difference(self.port, &history) {
                Some(found) => show::difference(&found),
                None => println!("    (not seen again)"),
            }
        }
        println!("{title}:");
        self.tally.print();
        // A run that leaves something out must not pass for one that compared it.
        for lack in self.demands.iter().flat_map(|demand| demand(&self.tally)) {
            println!("    lacking: {lack}");
            self.differing += 1;
        }
        (self.compared, self.differing)
    }
}

/// Sends as many of the histories as fit a batch.
fn send(port: &mut Port, histories: &[History]) -> usize {
    let mut words = Vec::new();
    let mut sent = 0;
    for history in histories {
        let more = link::commands(history);
        if sent > 0 && words.len() + more.len() > LARGEST_BATCH {
            break;
        }
        words.extend(more);
        sent += 1;
    }
    port.send(Batch::Dictionary, &words).expect("the port takes commands");
    sent
}

/// Runs a history by itself.
fn replayed<'a>(port: &mut Port, history: &'a History) -> Replay<'a> {
    send(port, std::slice::from_ref(history));
    let mut replay = Replay::new(history);
    if replay.run(port, |_, _| ()).is_err() {
        port.restart().expect("the port's program can be started");
    }
    replay
}

fn first_difference(port: &mut Port, history: &History) -> Option<Difference> {
    replayed(port, history).found
}

/// Holds the replies to a history against what is wanted, up to the first
/// difference; the replies behind that are read and dropped.
struct Replay<'a> {
    history: &'a History,
    world: World,
    found: Option<Difference>,
    given: Vec<Given>,
}

impl<'a> Replay<'a> {
    fn new(history: &'a History) -> Self {
        Self { history, world: World::new(history.first), found: None, given: Vec::new() }
    }

    /// An error where the program stopped.
    fn run(&mut self, port: &mut Port, mut count: impl FnMut(&Call, &Wanted)) -> Result<()> {
        let mut last = self.history.first;
        for (step, action) in self.history.steps.iter().enumerate() {
            match action {
                Step::Call(call) => self.call(port, step, call, &mut count)?,
                Step::Lend(lent) => {
                    last = *lent;
                    self.world.change(action);
                }
                _ => self.world.change(action),
            }
        }
        let memory = link::fetched(port, last)?;
        if self.found.is_none() {
            assert!(memory == self.world.memory, "the changes add up to the port's memory");
            self.world.assert_equal();
        }
        Ok(())
    }

    fn call(
        &mut self,
        port: &mut Port,
        step: usize,
        call: &Call,
        count: &mut impl FnMut(&Call, &Wanted),
    ) -> Result<()> {
        let given = link::given(port, call);
        let ended = given.as_ref().map(drop).map_err(|error| error.kind().into());
        self.given.extend(given.as_ref().ok().cloned());
        if self.found.is_none() {
            self.found = call_differs(&mut self.world, step, call, given.ok(), count);
        }
        ended
    }
}

fn call_differs(
    world: &mut World,
    step: usize,
    call: &Call,
    given: Option<Given>,
    count: &mut impl FnMut(&Call, &Wanted),
) -> Option<Difference> {
    let before = call.writes().then(|| world.memory.clone());
    let wanted = world.call(call);
    count(call, &wanted);
    let same = given.as_ref().is_some_and(|given| {
        let memory_same = match &before {
            Some(before) => changed(before.clone(), given) == world.memory,
            None => given.changes.is_empty(),
        };
        memory_same && given.strays == 0 && given.outcome == wanted.outcome
    });
    if same {
        return None;
    }
    let after = world.memory.clone();
    let before = before.unwrap_or_else(|| after.clone());
    Some(Difference { step, call: call.clone(), given, wanted, before, after })
}

pub fn changed(mut memory: Memory, given: &Given) -> Memory {
    for change in &given.changes {
        for (cell, at) in change.cells.iter().zip(change.first..) {
            memory.put(change.slice, at, *cell);
        }
    }
    memory
}
