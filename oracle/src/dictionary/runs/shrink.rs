//! From a history that differs to a smaller one that still does.

use crate::dictionary::model::consuming::A_PAYLOAD;
use crate::dictionary::model::insertion::Insertion;
use crate::dictionary::model::range::Range;
use crate::dictionary::model::step::{Call, Cycle, History, Step};
use std::time::{Duration, Instant};

struct Shrink<'a, F: FnMut(&History) -> Option<usize>> {
    history: History,
    /// Where a history first differs.
    differs: &'a mut F,
    until: Instant,
}

/// The shortest prefix, then fewer steps and objects, then smaller insertions;
/// as small as it gets in the time given.
pub fn smallest(
    history: History,
    time: Duration,
    differs: &mut impl FnMut(&History) -> Option<usize>,
) -> History {
    let mut shrink = Shrink { history, differs, until: Instant::now() + time };
    shrink.accept(shrink.history.clone());
    loop {
        let before = shrink.history.clone();
        shrink.drop_steps();
        shrink.drop_objects();
        shrink.lessen();
        if shrink.history == before || shrink.is_late() {
            return shrink.history;
        }
    }
}

impl<F: FnMut(&History) -> Option<usize>> Shrink<'_, F> {
    fn is_late(&self) -> bool {
        Instant::now() > self.until
    }

    /// Takes what differs, cut behind the step that does.
    fn accept(&mut self, mut history: History) -> bool {
        if self.is_late() {
            return false;
        }
        let Some(step) = (self.differs)(&history) else {
            return false;
        };
        history.steps.truncate(step + 1);
        self.history = history;
        true
    }

    /// Drops blocks of steps, from half of them down to single ones.
    fn drop_steps(&mut self) {
        let mut block = self.history.steps.len().div_ceil(2);
        while block > 0 {
            let mut start = 0;
            while start + block <= self.history.steps.len() {
                let mut history = self.history.clone();
                history.steps.drain(start..start + block);
                if !self.accept(history) {
                    start += block;
                }
            }
            block /= 2;
        }
    }

    fn drop_objects(&mut self) {
        for step in 0..self.history.steps.len() {
            let mut block = match self.history.steps.get(step) {
                Some(Step::Lay(objects)) => objects.len(),
                _ => 0,
            };
            while block > 0 {
                let mut start = 0;
                while let Some(history) = self.without_objects(step, start, block) {
                    if !self.accept(history) {
                        start += block;
                    }
                }
                block /= 2;
            }
        }
    }

    fn without_objects(&self, step: usize, start: usize, block: usize) -> Option<History> {
        let mut history = self.history.clone();
        let Some(Step::Lay(objects)) = history.steps.get_mut(step) else {
            return None;
        };
        if start + block > objects.len() {
            return None;
        }
        objects.drain(start..start + block);
        Some(history)
    }

    /// Simpler objects and insertions, one part at a time.
    fn lessen(&mut self) {
        for step in 0..self.history.steps.len() {
            for part in 0.. {
                let Some(action) = self.history.steps.get(step) else { return };
                let Some(simpler) = simpler(action, part) else { break };
                if simpler != *action {
                    let mut history = self.history.clone();
                    history.steps[step] = simpler;
                    self.accept(history);
                }
            }
        }
    }
}

/// The step with its part-th part made simpler; none where it has fewer parts.
fn simpler(step: &Step, part: usize) -> Option<Step> {
    let mut step = step.clone();
    match &mut step {
        Step::Call(Call::Insert(given)) => simpler_insertion(given, part)?,
        Step::Lay(objects) => {
            let object = objects.get_mut(part / 6)?;
            match part % 6 {
                0 => object.name.clear(),
                1 => object.default = None,
                2 => object.range = Range::NONE,
                3 => object.kept = None,
                4 => object.values.truncate(object.values.len().div_ceil(2)),
                _ => object.values.truncate(object.values.len().saturating_sub(1).max(1)),
            }
        }
        Step::Call(Call::Write(given)) => match part {
            0 => given.data.truncate(given.data.len() / 2),
            1 => drop(given.data.pop()),
            _ => return None,
        },
        Step::Call(Call::ConsumePdoPayload(given)) => match part {
            0 => given.payload.truncate(given.payload.len() / 2),
            1 => drop(given.payload.pop()),
            2 => given.payload.fill(0),
            _ => return None,
        },
        Step::Call(Call::ConsumeCycle(given)) => simpler_cycle(given, part)?,
        _ => return None,
    }
    Some(step)
}

/// Fewer payloads: the first or the last half, simpler data, then all but one.
fn simpler_cycle(given: &mut Cycle, part: usize) -> Option<()> {
    let Cycle { data, payloads, .. } = given;
    let half = A_PAYLOAD * (payloads.len() / A_PAYLOAD / 2);
    match part {
        0 => payloads.truncate(half),
        1 => drop(payloads.drain(..half)),
        2 => data.fill(0),
        _ => {
            let first = A_PAYLOAD * (part - 3);
            payloads.get(first..first + A_PAYLOAD)?;
            payloads.drain(first..first + A_PAYLOAD);
        }
    }
    Some(())
}

fn simpler_insertion(given: &mut Insertion, part: usize) -> Option<()> {
    match part {
        0 => given.name.clear(),
        1..=8 => {
            // The last values, with their bytes: from half of them down.
            let values = given.numbers.len() / 3;
            let dropped = values >> part;
            let bytes = given.numbers.chunks_exact(3).skip(values - dropped).map(|value| value[2]);
            let bytes = usize::try_from(bytes.fold(0, u64::saturating_add)).unwrap_or(usize::MAX);
            given.numbers.truncate(3 * (values - dropped));
            given.encodings.truncate(given.encodings.len().saturating_sub(bytes));
        }
        9 => given.ends = Range::NONE.ends(),
        _ => return None,
    }
    Some(())
}
