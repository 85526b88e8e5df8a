//! When a dictation began, and what it is called by that: `2026-11-16/093012-left.wav`. Names have the time that the
//! clock on the wall showed; within a recording there are seconds since 1970, which know no time zone.

use crate::cleaning::recorder::Side;
use crate::sys::clock::{local, since_1970_of, Local};
use crate::RATE;
use std::time::{SystemTime, UNIX_EPOCH};

/// What tells the time of a bench's samples.
#[derive(Clone, Copy, Debug, PartialEq)]
pub enum Times {
    /// This computer's clock: a stream comes as it is spoken.
    Clock,
    /// The first sample was recorded so many seconds after 1970 began. The others follow by their positions.
    From(u64),
}

fn whole_seconds(samples: u64) -> u64 {
    samples / u64::from(RATE)
}

/// So many seconds after 1970 began.
pub fn since_1970(when: SystemTime) -> u64 {
    when.duration_since(UNIX_EPOCH).unwrap_or_default().as_secs()
}

impl Times {
    /// When a sample was recorded, before which so many have come, and after it so many.
    pub fn of(self, before: u64, after: u64) -> u64 {
        match self {
            Times::Clock => since_1970(SystemTime::now()).saturating_sub(whole_seconds(after)),
            Times::From(start) => start.saturating_add(whole_seconds(before)),
        }
    }
}

/// The time of a recording that nobody can read off a clock.
const NEVER: Local = Local { year: 1970, month: 1, day: 1, hour: 0, minute: 0, second: 0 };

fn local_time(began: u64) -> Local {
    local(began).unwrap_or(NEVER)
}

/// The day on which something began, as `2026-11-16`.
pub fn day_of(began: u64) -> String {
    let Local { year, month, day, .. } = local_time(began);
    format!("{year:04}-{month:02}-{day:02}")
}

/// The time of day at which it began, as `09:30:12`.
pub fn hour_of(began: u64) -> String {
    let Local { hour, minute, second, .. } = local_time(began);
    format!("{hour:02}:{minute:02}:{second:02}")
}

/// The name of a side's dictation: the time at which it began, the side, and a number if the name is taken.
pub fn name_of(began: u64, side: Side, number: Option<u32>) -> String {
    let hour = hour_of(began).replace(':', "");
    let number = number.map_or(String::new(), |number| format!("-{number}"));
    format!("{hour}-{}{number}.wav", side.name())
}

/// Whether a folder's name is a day.
pub fn is_day(name: &str) -> bool {
    let digits = |part: &str, many: usize| part.len() == many && part.bytes().all(|byte| byte.is_ascii_digit());
    matches!(name.split('-').collect::<Vec<_>>()[..], [y, m, d] if digits(y, 4) && digits(m, 2) && digits(d, 2))
}

/// The moment that `2026-11-16T09:30:12` names in this computer's time zone. The seconds may be missing.
pub fn read_moment(text: &str) -> Option<u64> {
    let (day, hour) = text.split_once('T')?;
    let number = |part: &str| part.bytes().all(|byte| byte.is_ascii_digit()).then(|| part.parse().ok())?;
    let (year, month, day) = match day.split('-').collect::<Vec<_>>()[..] {
        [y, m, d] if is_day(day) => (i32::try_from(number(y)?).ok()?, number(m)?, number(d)?),
        _ => return None,
    };
    let parts: Vec<&str> = hour.split(':').collect();
    let (hour, minute, second) = match parts[..] {
        _ if parts.iter().any(|part| part.len() != 2) => return None,
        [hour, minute] => (number(hour)?, number(minute)?, 0),
        [hour, minute, second] => (number(hour)?, number(minute)?, number(second)?),
        _ => return None,
    };
    since_1970_of(Local { year, month, day, hour, minute, second })
}

#[cfg(test)]
mod tests {
    use super::*;

    #[test]
    fn names_that_sort() {
        let began = read_moment("2026-11-16T09:30:12").unwrap();
        assert_eq!((day_of(began), hour_of(began)), ("2026-11-16".into(), "09:30:12".into()));
        assert_eq!(name_of(began, Side::Left, None), "093012-left.wav");
        assert_eq!(name_of(began + 60, Side::Right, Some(2)), "093112-right-2.wav");
        assert_eq!(read_moment("2026-11-16T09:30"), Some(began - 12));
        for wrong in [
            "",
            "2026-11-16",
            "09:30:12",
            "2026-11-16 09:30:12",
            "2026-11-16T9:30:12",
            "2026-13-16T09:30:12",
            "2026-02-30T09:30:12",
            "2026-11-16T24:30:12",
            "2026-11-16T09:30:12Z",
            "2026-11-16T+9:30:12",
            "26-11-16T09:30:12",
            "2026-11-16T09:30:12:00",
        ] {
            assert_eq!(read_moment(wrong), None, "{wrong}");
        }
        assert!(is_day("2026-11-16") && !is_day("2026-11-1") && !is_day("monday") && !is_day("2026-11-16-left"));
    }

    /// By its position, or by the clock less what has come after it.
    #[test]
    fn when_a_sample_was_recorded() {
        let times = Times::From(1_000);
        assert_eq!([times.of(0, 7), times.of(47_999, 0), times.of(96_000, 96_000)], [1_000, 1_000, 1_002]);
        let now = since_1970(SystemTime::now());
        assert!((now..now + 60).contains(&Times::Clock.of(9_999_999, 0)));
        assert!((now - 2..now + 58).contains(&Times::Clock.of(0, 96_000)));
    }
}
