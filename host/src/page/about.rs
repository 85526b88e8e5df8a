//! What a page says of a recording besides its sound.

use std::path::Path;
use std::time::{SystemTime, UNIX_EPOCH};

#[derive(Clone, Default)]
pub struct About {
    /// The recording's name, without its folder.
    pub name: String,
    /// When it was made: a file's last change, a stream's beginning.
    pub when: Option<SystemTime>,
    /// The name of the model that cleaned it.
    pub model: String,
    /// Why it is not whole, where it is not.
    pub fault: Option<String>,
    /// The names of the recordings in which it goes on, if it was too long for one.
    pub more: Vec<String>,
    /// Whether nobody asked for this bench.
    pub absent: bool,
}

fn name(path: &Path) -> String {
    path.file_name().unwrap_or(path.as_os_str()).to_string_lossy().into()
}

impl About {
    pub fn file(path: &Path, model: &Path) -> About {
        let when = path.metadata().and_then(|file| file.modified()).ok();
        About { name: name(path), when, model: name(model), ..About::default() }
    }

    /// A bench that nobody asked for.
    pub fn nothing() -> About {
        About { absent: true, ..About::default() }
    }

    /// What begins now.
    pub fn stream(what: &str, model: &Path) -> About {
        About { name: what.into(), when: Some(SystemTime::now()), model: name(model), ..About::default() }
    }
}

/// A moment as `2026-11-16T04:30Z`, to the minute.
pub fn minute(when: SystemTime) -> String {
    let minutes = when.duration_since(UNIX_EPOCH).unwrap_or_default().as_secs() / 60;
    let ([year, month, day], within) = (date(minutes / 1_440), minutes % 1_440);
    format!("{year:04}-{month:02}-{day:02}T{:02}:{:02}Z", within / 60, within % 60)
}

/// Year, month and day, so many days behind 1 January 1970.
fn date(mut days: u64) -> [u64; 3] {
    let is_leap = |year: u64| year.is_multiple_of(4) && (!year.is_multiple_of(100) || year.is_multiple_of(400));
    let mut year = 1970;
    while days >= 365 + u64::from(is_leap(year)) {
        days -= 365 + u64::from(is_leap(year));
        year += 1;
    }
    let february = 28 + u64::from(is_leap(year));
    let mut month = 1;
    for length in [31, february, 31, 30, 31, 30, 31, 31, 30, 31, 30] {
        if days < length {
            break;
        }
        days -= length;
        month += 1;
    }
    [year, month, days + 1]
}

#[cfg(test)]
mod tests {
    use super::*;
    use std::time::Duration;

    #[test]
    fn moments() {
        let told = |seconds: u64| minute(UNIX_EPOCH + Duration::from_secs(seconds));
        assert_eq!(told(59), "1970-01-01T00:00Z");
        assert_eq!(told(951_782_399), "2000-02-28T23:59Z");
        assert_eq!(told(951_782_400), "2000-02-29T00:00Z");
        assert_eq!(told(1_767_225_599), "2025-12-31T23:59Z");
        assert_eq!(told(1_794_803_400), "2026-11-16T04:30Z");
        assert_eq!(minute(UNIX_EPOCH - Duration::from_secs(1)), "1970-01-01T00:00Z");
    }
}
