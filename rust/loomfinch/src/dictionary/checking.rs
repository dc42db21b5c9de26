//! Checking channels.

use super::Dictionary;
use crate::answer::{done, fit};
use crate::check::Checked;
use crate::refusal::Refusal;
use crate::sys;

/// The answer for memory that is no dictionary.
const MALFORMED: u64 = 1;

/// Three numbers for each of 256 channels.
const CHECK_ALL_NUMBERS: usize = 768;

impl Dictionary {
    /// Checks a channel, and changes nothing. It passes exactly when the channel maps at least one field, some payload can
    /// fill it, and every ready payload that it accepts, long enough and with well-formed text, has each mapped field
    /// written whole, in mapping order, with no event and nothing else changed. A pass holds until a restore, or until
    /// the objects 1400h+channel or 1600h+channel change. In [edition 2](crate::Edition::Two) the elements in use alone are
    /// checked, and another count that is written ends the pass too.
    pub fn check(&self, channel: u8) -> Result<Checked, Refusal> {
        let mut element = 0;
        match sys::check(&self.parts, channel, &mut element) {
            MALFORMED => Err(Refusal::Malformed),
            answer => Ok(Checked::from_numbers(answer, element)),
        }
    }

    /// Checks every channel that has an object 1400h+channel; the channels rise.
    pub fn check_all(&self) -> Result<Vec<(u8, Checked)>, Refusal> {
        let mut numbers = [0; CHECK_ALL_NUMBERS];
        let mut count = 0;
        done(sys::check_all(&self.parts, &mut numbers, &mut count))?;
        let channels = numbers[..fit(count)].chunks_exact(3);
        Ok(channels.map(|n| (fit(n[0]), Checked::from_numbers(n[1], n[2]))).collect())
    }
}
