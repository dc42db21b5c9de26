//! Which frames of a replay are told: those that all wishes fit.

use crate::clock::Between;
use crate::report::{Line, Told};

#[derive(Clone, Debug, Default)]
pub struct Filter {
    /// Only what concerns one of these places; none is all.
    pub objects: Vec<(u16, u8)>,
    pub sender: Option<u8>,
    /// Only values that changed.
    pub changes: bool,
    /// Only frames with trouble.
    pub faults: bool,
    pub between: Option<Between>,
}

impl Filter {
    /// Is a frame told? A capture may not say when it came; such a frame lies in no part of the day.
    pub fn shows(&self, sender: Option<u8>, time: Option<i128>, told: &Told) -> bool {
        let mapped = |place: &(u16, u8)| told.mapped.contains(place);
        let of_object = || self.objects.iter().any(mapped) || self.lines(told).iter().any(of_place);
        let within = |between: Between| time.map_or(false, |time| between.holds(time));
        (self.sender.is_none() || sender == self.sender)
            && (self.objects.is_empty() || of_object())
            && (!self.changes || self.lines(told).iter().any(|line| line.changed))
            && (!self.faults || !told.troubles.is_empty())
            && self.between.map_or(true, within)
    }

    /// The lines of a frame that are told.
    pub fn lines<'a>(&self, told: &'a Told) -> Vec<&'a Line> {
        let wanted = |line: &&Line| {
            let named = |place: &(u16, u8)| self.objects.contains(place);
            let of_object = line.places.is_empty() || line.places.iter().any(named);
            (self.objects.is_empty() || of_object) && (!self.changes || !line.same)
        };
        told.lines.iter().filter(wanted).collect()
    }
}

fn of_place(line: &&Line) -> bool {
    !line.places.is_empty()
}
