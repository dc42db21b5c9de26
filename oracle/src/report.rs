//! Counts the comparisons and keeps a smallest difference of each sort.

use crate::call::{Call, Function, Outcome, SAID, byte_fill, number_fill};
use crate::decoded::Decoded;
use crate::port::{MOST_STOPS, Port};
use crate::shrink::smallest;
use crate::sweep::Sweep;
use std::collections::BTreeMap;
use std::fmt;

/// Calls that are answered at one go: few enough for the longest of them to fit a batch.
const BATCH: usize = 256;

/// Sweeps that are made at one go.
const SWEEPS: usize = 16;

pub struct Report<'a> {
    port: &'a mut Port,
    waiting: Vec<Call>,
    compared: u64,
    differing: u64,
    /// How often the port's program was stopped.
    stops: usize,
    decoded: Decoded,
    /// By function and type number.
    found: BTreeMap<(Function, u64), Call>,
}

impl<'a> Report<'a> {
    pub fn new(port: &'a mut Port) -> Self {
        Self {
            port,
            waiting: Vec::new(),
            compared: 0,
            differing: 0,
            stops: 0,
            decoded: Decoded::default(),
            found: BTreeMap::new(),
        }
    }

    /// Holds the port's whole answer against the Rust's.
    pub fn compare(&mut self, call: Call) {
        if self.stops > MOST_STOPS {
            return;
        }
        self.waiting.push(call);
        if self.waiting.len() == BATCH {
            self.answer();
        }
    }

    fn answer(&mut self) {
        let calls = std::mem::take(&mut self.waiting);
        let outcomes = outcomes(self.port, &calls);
        self.compared += calls.len() as u64;
        for (call, outcome) in calls.into_iter().zip(outcomes) {
            let wanted = call.wanted();
            self.decoded.count(&call, wanted.answer);
            if outcome != wanted {
                self.differing += 1;
                self.stops += usize::from(outcome.numbers.is_empty());
                self.keep(call);
            }
        }
    }

    fn keep(&mut self, call: Call) {
        let port = &mut *self.port;
        let mut differs = |call: &Call| given(port, call) != call.wanted();
        let sort = (call.function, call.kind);
        self.found.entry(sort).or_insert_with(|| smallest(call, &mut differs));
    }

    /// Holds the sums of sweeps against those wanted. Of a sweep that differs one call is kept.
    pub fn sweep(&mut self, sweeps: &[Sweep]) {
        for some in sweeps.chunks(SWEEPS) {
            if self.stops > MOST_STOPS {
                return;
            }
            let sent = self.port.send_sweeps(some);
            // The port's program is at work meanwhile.
            let mut look = |call: &Call, wanted: &Outcome| {
                self.compared += 1;
                self.decoded.count(call, wanted.answer);
            };
            let wanted: Vec<u64> = some.iter().map(|sweep| sweep.wanted(&mut look)).collect();
            let sums = sent.and_then(|()| some.iter().map(|one| self.port.swept(one)).collect());
            let sums = sums.unwrap_or_else(|_| each_sum(self.port, some));
            for ((sweep, sum), wanted) in some.iter().zip(sums).zip(wanted) {
                if sum != Some(wanted) {
                    self.differing += 1;
                    self.stops += usize::from(sum.is_none());
                    let call = differing_call(self.port, sweep);
                    self.keep(call);
                }
            }
        }
    }

    /// Prints the differences and what was decoded; gives the comparisons and the differences.
    pub fn finish(mut self) -> (u64, u64) {
        self.answer();
        for call in self.found.values() {
            println!("differs: {call}");
            println!("    given:  {}", Shown(call, &given(self.port, call)));
            println!("    wanted: {}", Shown(call, &call.wanted()));
        }
        self.decoded.print();
        // A run that leaves something out must not pass for one that compared it.
        for lack in self.decoded.lacking() {
            println!("    lacking: {lack}");
            self.differing += 1;
        }
        (self.compared, self.differing)
    }
}

fn given(port: &mut Port, call: &Call) -> Outcome {
    outcomes(port, std::slice::from_ref(call)).remove(0)
}

/// Where the program stops, each call is made by itself, and the one that stops
/// it has an outcome without memory, which no call is wanted to have.
fn outcomes(port: &mut Port, calls: &[Call]) -> Vec<Outcome> {
    if let Ok(outcomes) = port.outcomes(calls) {
        return outcomes;
    }
    port.restart().expect("the port's program can be started");
    if calls.len() == 1 {
        let (said, out) = ([0; SAID], vec![]);
        return vec![Outcome { answer: 0, touched: true, numbers: vec![], said, out }];
    }
    calls.iter().map(|call| given(port, call)).collect()
}

/// Where the program stops, each sweep is made by itself.
fn each_sum(port: &mut Port, sweeps: &[Sweep]) -> Vec<Option<u64>> {
    port.restart().expect("the port's program can be started");
    sweeps.iter().map(|sweep| sum(port, sweep)).collect()
}

/// None where a call of the sweep stops the program, or touches what it may not.
fn sum(port: &mut Port, sweep: &Sweep) -> Option<u64> {
    let sum = port.send_sweeps(std::slice::from_ref(sweep)).and_then(|()| port.swept(sweep));
    if sum.is_err() {
        port.restart().expect("the port's program can be started");
    }
    sum.ok().flatten()
}

/// A call of a sweep that differs: smaller and smaller parts of it do. The first one where none of
/// them does.
fn differing_call(port: &mut Port, sweep: &Sweep) -> Call {
    let mut differs = |part: &Sweep| sum(port, part) != Some(part.wanted(&mut |_, _| ()));
    let part = (sweep.count > 0).then(|| sweep.parts().find(|part| differs(part))).flatten();
    part.map_or_else(|| sweep.first(), |part| differing_call(port, &part))
}

impl fmt::Display for Call {
    fn fmt(&self, f: &mut fmt::Formatter<'_>) -> fmt::Result {
        let Call { function, kind, word, input, out, room } = self;
        write!(f, "{function:?} type {kind} word {word:X} input [{}], ", hex(input))?;
        write!(f, "lent {room} numbers and {out} bytes")
    }
}

fn hex(bytes: &[u8]) -> String {
    runs(bytes.iter().map(|byte| format!("{byte:02X}")).collect())
}

/// Long runs of one cell are counted, so that 1,490 bytes stay readable.
fn runs(cells: Vec<String>) -> String {
    let runs = cells.chunk_by(|left, right| left == right);
    let runs = runs.map(|run| match run.len() {
        0..=8 => run.join(" "),
        length => format!("{}*{length}", run[0]),
    });
    runs.collect::<Vec<String>>().join(" ")
}

/// Lent memory with a dot for each unchanged cell; behind the bar is what was not lent.
struct Shown<'a>(&'a Call, &'a Outcome);

impl fmt::Display for Shown<'_> {
    fn fmt(&self, f: &mut fmt::Formatter<'_>) -> fmt::Result {
        let Shown(call, Outcome { answer, touched, numbers, said, out }) = self;
        if *touched {
            write!(f, "a fault, or a touch where nothing may be touched; ")?;
        }
        let changed = |(i, n): (usize, &u64)| (*n != number_fill(i)).then(|| format!("{n:X}"));
        let numbers = numbers.iter().enumerate().map(changed);
        let said = said.iter().enumerate().map(changed);
        let out = out.iter().enumerate();
        let out = out.map(|(i, byte)| (*byte != byte_fill(i)).then(|| format!("{byte:02X}")));
        write!(f, "answer {answer:X}, numbers [{}]", cells(numbers, call.room))?;
        write!(f, ", of a fault [{}]", cells(said, SAID))?;
        write!(f, ", bytes [{}]", cells(out, call.out))
    }
}

fn cells(cells: impl Iterator<Item = Option<String>>, lent: usize) -> String {
    let mut shown = Vec::new();
    for (place, cell) in cells.enumerate() {
        if place == lent {
            shown.push("|".to_string());
        }
        shown.push(cell.unwrap_or(".".to_string()));
    }
    runs(shown)
}
