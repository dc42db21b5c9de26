//! The time of day of a packet, on the clock of a place.

const SECOND: i128 = 1_000_000_000;
const DAY: i128 = 86_400 * SECOND;

/// A clock, by how far it is ahead of UTC, in which captures count.
#[derive(Clone, Copy, Debug, PartialEq, Eq)]
pub struct Clock {
    minutes: i32,
}

impl Clock {
    /// `+01:00`, `-03:30` or `Z`.
    pub fn parse(text: &str) -> Option<Clock> {
        if text == "Z" {
            return Some(Clock { minutes: 0 });
        }
        let (sign, digits) = match text.strip_prefix('-') {
            Some(digits) => (-1, digits),
            None => (1, text.strip_prefix('+')?),
        };
        let (hours, minutes) = digits.split_once(':')?;
        let (hours, minutes) = (two_digits(hours, 14)?, two_digits(minutes, 59)?);
        Some(Clock { minutes: sign * (60 * hours as i32 + minutes as i32) })
    }

    /// Nanoseconds since midnight of a packet's time.
    fn of_day(self, time: i128) -> i128 {
        (time + i128::from(self.minutes) * 60 * SECOND).rem_euclid(DAY)
    }

    /// `20:14:03.000400`.
    pub fn shown(self, time: i128, mark: char) -> String {
        let of_day = self.of_day(time);
        let (seconds, micros) = (of_day / SECOND, of_day % SECOND / 1000);
        let (hours, minutes) = (seconds / 3600, seconds / 60 % 60);
        format!("{:02}:{:02}:{:02}{}{:06}", hours, minutes, seconds % 60, mark, micros)
    }
}

/// A part of the day, on a clock, both ends within it; it may go over midnight.
#[derive(Clone, Copy, Debug, PartialEq, Eq)]
pub struct Between {
    clock: Clock,
    from: i128,
    to: i128,
}

impl Between {
    /// `20:14:00..20:15:00`.
    pub fn parse(text: &str, clock: Clock) -> Option<Between> {
        let (from, to) = text.split_once("..")?;
        Some(Between { clock, from: time_of_day(from)?, to: time_of_day(to)? })
    }

    pub fn holds(self, time: i128) -> bool {
        let time = self.clock.of_day(time);
        if self.from <= self.to {
            (self.from..=self.to).contains(&time)
        } else {
            time >= self.from || time <= self.to
        }
    }
}

/// `20:14`, `20:14:03`, `20:14:03.5` or `20:14:03,5`, in nanoseconds since midnight.
fn time_of_day(text: &str) -> Option<i128> {
    let mut parts = text.splitn(3, ':');
    let (hours, minutes) = (two_digits(parts.next()?, 23)?, two_digits(parts.next()?, 59)?);
    let seconds = parts.next().unwrap_or("00");
    let (whole, fraction) = seconds.split_once(['.', ',']).unwrap_or((seconds, "0"));
    let digits = (1..=9).contains(&fraction.len()) && fraction.bytes().all(|c| c.is_ascii_digit());
    let fraction: i128 = format!("{fraction:0<9}").parse().ok().filter(|_| digits)?;
    let seconds = 3600 * hours + 60 * minutes + two_digits(whole, 59)?;
    Some(i128::from(seconds) * SECOND + fraction)
}

fn two_digits(text: &str, most: u32) -> Option<u32> {
    let right = text.len() == 2 && text.bytes().all(|c| c.is_ascii_digit());
    text.parse().ok().filter(|number| right && *number <= most)
}

#[cfg(test)]
mod tests {
    use super::*;

    /// 14 November 2023, 22:13:20 UTC.
    const TIME: i128 = 1_700_000_000 * SECOND;

    #[test]
    fn clocks_ahead_and_behind() {
        for (clock, shown) in [
            ("Z", "22:13:20.000400"),
            ("+00:00", "22:13:20.000400"),
            ("+01:00", "23:13:20.000400"),
            ("+02:00", "00:13:20.000400"),
            ("-03:30", "18:43:20.000400"),
        ] {
            assert_eq!(Clock::parse(clock).unwrap().shown(TIME + 400_000, '.'), shown);
        }
        for wrong in ["", "1", "01:00", "+1:00", "+15:00", "+01:60", "+01-00", "+é:00"] {
            assert_eq!(Clock::parse(wrong), None, "{wrong}");
        }
    }

    #[test]
    fn parts_of_the_day() {
        let clock = Clock::parse("+01:00").unwrap();
        let holds = |text: &str| Between::parse(text, clock).unwrap().holds(TIME);
        assert!(holds("23:13:20..23:13:20"));
        assert!(holds("23:13..23:14"));
        assert!(holds("23:00:00..01:00:00"));
        assert!(!holds("23:13:20.5..23:14"));
        assert!(!holds("01:00:00..23:00:00"));
        for wrong in ["23:13", "23:13..", "24:00..25:00", "23:13:20.,5..23:14", "23..24"] {
            assert_eq!(Between::parse(wrong, clock), None, "{wrong}");
        }
    }
}
