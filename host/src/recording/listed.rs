//! The recordings in a folder and in the folders of its days, by their heads, and by the table of each day for what no
//! head says: where the voice is.

use crate::cleaning::recorder::Side;
use crate::error::{At, Result};
use crate::recording::front::{seal_in, size_in, Front, HEAD};
use crate::recording::place::new_file;
use crate::recording::times::is_day;
use crate::sys::disk::sync_data;
use crate::RATE;
use std::fs::{self, File};
use std::io::{ErrorKind, Read, Seek, SeekFrom, Write};
use std::path::{Path, PathBuf};

/// A row for each dictation, in the folder of its day.
pub const TABLE: &str = "dictations.csv";
/// The folder beside the dictations of a day in which their recordings lie as they were before cleaning.
pub const BEFORE: &str = "before";
const COLUMNS: &str = "file,side,began,seconds,first frame,frames,heard,first voice,last voice";

/// Where the voice is in a dictation, in seconds from its beginning.
#[derive(Clone, Copy, Debug, PartialEq)]
pub enum Voice {
    /// Nobody looked, as after a crash.
    Unknown,
    None,
    /// Where the first voice begins, and where the last one ends.
    From {
        first: f64,
        last: f64,
    },
}

/// A recording that is closed, by its head.
#[derive(Clone, Debug, PartialEq)]
pub struct Listed {
    /// Its place from the folder on, as `2026-11-16/093012-left.wav`.
    pub name: PathBuf,
    pub front: Front,
    /// Bytes of audio.
    pub size: u32,
    pub voice: Voice,
    /// Whether it is there as it was before cleaning, too.
    pub has_before: bool,
}

impl Listed {
    pub fn seconds(&self) -> f64 {
        f64::from(self.size / 2) / f64::from(RATE)
    }

    /// How many frames it has: those that its audio fills, and one more if it begins with an opening.
    pub fn frames(&self) -> u64 {
        u64::from(self.size).div_ceil(960) + u64::from(self.front.first == 0)
    }
}

/// What the head of a file says, if it is that of a recording that is closed.
pub fn head_of(path: &Path) -> Option<(Front, u32)> {
    let mut head = [0; HEAD];
    fs::symlink_metadata(path).ok().filter(|about| about.is_file())?;
    File::open(path).ok()?.read_exact(&mut head).ok()?;
    let (front, size) = (Front::read(&seal_in(&head)).ok()?, size_in(&head));
    (front.head(size) == Ok(head)).then_some((front, size)).filter(|(_, size)| *size <= super::front::MOST)
}

/// The names in a folder; none if it can't be read.
fn names_in(folder: &Path) -> Vec<String> {
    let entries = fs::read_dir(folder).into_iter().flatten().filter_map(|entry| entry.ok());
    let mut names: Vec<String> = entries.filter_map(|entry| entry.file_name().into_string().ok()).collect();
    names.sort();
    names
}

/// The folders of days in a folder, by their names.
pub fn days(folder: &Path) -> Vec<String> {
    names_in(folder).into_iter().filter(|name| is_day(name) && folder.join(name).is_dir()).collect()
}

/// The WAV files of a folder and of the days in it, from the folder on.
pub fn wavs(folder: &Path) -> Vec<PathBuf> {
    let within = |day: String| names_in(&folder.join(&day)).into_iter().map(move |name| Path::new(&day).join(name));
    let own = names_in(folder).into_iter().map(PathBuf::from);
    let all = own.chain(days(folder).into_iter().flat_map(within));
    all.filter(|name| name.extension().is_some_and(|ending| ending.eq_ignore_ascii_case("wav"))).collect()
}

/// The ends of the names of what is on its way, and of records.
const ON_THE_WAY: [&str; 2] = [".part", ".sheet"];

/// The names of the recordings in a folder that are on their way.
fn on_the_way(folder: &Path) -> Vec<String> {
    let place = |name: String| ON_THE_WAY.iter().find_map(|end| name.strip_suffix(end).map(String::from));
    let mut found: Vec<String> = names_in(folder).into_iter().filter_map(place).collect();
    found.retain(|name| name.ends_with(".wav"));
    found.dedup();
    found
}

/// The recordings that were begun in a folder beside those of both sides: `left-2.wav` and so on, and dictations in the
/// folders of its days.
pub fn begun(folder: &Path) -> Vec<PathBuf> {
    let is_next = |name: &String| {
        let number = Side::BOTH.iter().find_map(|side| name.strip_prefix(side.name())?.strip_prefix('-'));
        number.and_then(|rest| rest.strip_suffix(".wav")).is_some_and(|number| number.parse::<u32>().is_ok())
    };
    // the folder may be that of a day itself
    let is_day = folder.file_name().is_some_and(|name| is_day(&name.to_string_lossy()));
    let next = on_the_way(folder).into_iter().filter(|name| is_day || is_next(name)).map(|name| folder.join(name));
    let of_day = |day: String| {
        let day = folder.join(day);
        on_the_way(&day).into_iter().map(move |name| day.join(name))
    };
    next.chain(days(folder).into_iter().flat_map(of_day)).collect()
}

/// The originals that are on their way in the folders of a folder's days, as they are called there.
pub fn originals(folder: &Path) -> Vec<PathBuf> {
    let of_day = |day: String| {
        let before = folder.join(day).join(BEFORE);
        on_the_way(&before).into_iter().map(move |name| before.join(name + ON_THE_WAY[0]))
    };
    days(folder).into_iter().flat_map(of_day).collect()
}

/// The voices that a day's table has, by file. Of two rows of one file the later one counts.
fn voices(day: &Path) -> Vec<(String, Voice)> {
    let table = fs::read(day.join(TABLE)).unwrap_or_default();
    let table = String::from_utf8_lossy(&table).into_owned();
    let voice = |row: &str| {
        let parts: Vec<&str> = row.split(',').collect();
        let [file, .., first, last] = parts[..] else { return None };
        let voice = match (first, last) {
            ("", "") => Voice::None,
            ("?", "?") => Voice::Unknown,
            _ => Voice::From { first: first.parse().ok()?, last: last.parse().ok()? },
        };
        (parts.len() == COLUMNS.split(',').count()).then(|| (file.to_string(), voice))
    };
    // a row that a crash cut off has no end
    table.split_inclusive('\n').filter(|row| row.ends_with('\n')).filter_map(|row| voice(row.trim_end())).collect()
}

/// The dictations of the days in a folder, by the time at which they began.
pub fn dictations(folder: &Path) -> Vec<Listed> {
    let mut all = vec![];
    for day in days(folder) {
        let path = folder.join(&day);
        let voices = voices(&path);
        for file in names_in(&path) {
            let Some((front, size)) = head_of(&path.join(&file)) else { continue };
            let voice = voices.iter().rev().find(|(of, _)| *of == file).map_or(Voice::Unknown, |(_, voice)| *voice);
            let has_before = path.join(BEFORE).join(&file).is_file();
            all.push(Listed { name: Path::new(&day).join(file), front, size, voice, has_before });
        }
    }
    sort(&mut all, |one| (one.front, &one.name));
    all
}

/// By the time at which they began, then by the side, the first frame and the name.
pub fn sort<T>(all: &mut [T], by: impl Fn(&T) -> (Front, &Path)) {
    all.sort_by(|a, b| {
        let key =
            |(Front { side, began, first }, name): (Front, &Path)| (began, side as u32, first, name.to_path_buf());
        key(by(a)).cmp(&key(by(b)))
    });
}

/// Adds a dictation to the table of its day, whose folder this is.
pub fn note_dictation(
    day: &Path,
    file: &str,
    front: Front,
    frames: u64,
    heard: u64,
    seconds: f64,
    voice: Voice,
) -> Result<()> {
    let place = day.join(TABLE);
    let table = match new_file(&place) {
        Ok(mut table) => writeln!(table, "{COLUMNS}").map(|()| table),
        Err(why) if why.kind() == ErrorKind::AlreadyExists => File::options().read(true).append(true).open(&place),
        Err(why) => Err(why),
    };
    let mut table = table.at(&place)?;
    let (first, last) = match voice {
        Voice::Unknown => ("?".into(), "?".into()),
        Voice::None => (String::new(), String::new()),
        Voice::From { first, last } => (format!("{first:.2}"), format!("{last:.2}")),
    };
    let Front { side, began, first: frame } = front;
    let row = format!("{file},{},{began},{seconds:.5},{frame},{frames},{heard},{first},{last}\n", side.name());
    let row = if is_torn(&mut table).at(&place)? { format!("\n{row}") } else { row };
    table.write_all(row.as_bytes()).and_then(|()| sync_data(&table)).at(&place)
}

/// Whether the last row of a table was cut off by a crash.
fn is_torn(table: &mut File) -> std::io::Result<bool> {
    let mut last = [b'\n'];
    if table.seek(SeekFrom::End(0))? > 0 {
        table.seek(SeekFrom::End(-1))?;
        table.read_exact(&mut last)?;
    }
    Ok(last != [b'\n'])
}

/// A bench's recordings between which frames are missing, or there twice.
#[derive(Clone, Debug, PartialEq)]
pub struct Missing {
    pub side: Side,
    /// The numbers of the first and the last frame that are missing.
    pub frames: [u32; 2],
    /// The recording after which they are missing, if there is one, and the one before which they are.
    pub between: (Option<PathBuf>, PathBuf),
}

/// What is missing between some recordings of one bench, which are in order: each begins with frame 0, or with the
/// frame after the last one of the recording before it. Each is told with its number of frames.
pub fn missing<'a>(side: Side, all: impl Iterator<Item = (&'a Path, Front, u64)>) -> Vec<Missing> {
    let (mut found, mut before): (Vec<Missing>, Option<(&Path, u32)>) = (vec![], None);
    for (name, front, frames) in all.filter(|(_, front, _)| front.side == side) {
        let due = before.map_or(0, |(_, next)| next);
        if front.first != 0 && front.first != due {
            let between = (before.map(|(name, _)| name.to_owned()), name.to_owned());
            found.push(Missing { side, frames: [due, front.first.wrapping_sub(1)], between });
        }
        before = Some((name, front.first.wrapping_add(frames as u32)));
    }
    found
}

#[cfg(test)]
mod tests {
    use super::*;

    fn front(side: Side, began: u64, first: u32) -> Front {
        Front { side, began, first }
    }

    /// Each bench for itself: what is missing at one is not missing at the other.
    #[test]
    fn what_is_missing() {
        let [left, right] = Side::BOTH;
        let all = [
            ("a", front(left, 10, 0), 100),
            ("b", front(right, 10, 0), 40),
            ("c", front(left, 20, 100), 50),
            ("d", front(right, 20, 41), 50),
            ("e", front(left, 30, 200), 7),
            // another run
            ("f", front(left, 40, 0), 9),
            ("g", front(left, 50, 9), 9),
        ];
        let found = |side: Side, all: &[(&str, Front, u64)]| {
            missing(side, all.iter().map(|(name, front, frames)| (Path::new(*name), *front, *frames)))
        };
        let gap = |side: Side, frames: [u32; 2], before: Option<&str>, behind: &str| Missing {
            side,
            frames,
            between: (before.map(PathBuf::from), behind.into()),
        };
        assert_eq!(found(left, &all), [gap(left, [150, 199], Some("c"), "e")]);
        assert_eq!(found(right, &all), [gap(right, [40, 40], Some("b"), "d")]);
        assert_eq!(found(left, &all[2..3]), [gap(left, [0, 99], None, "c")]);
        assert_eq!(found(left, &[]), []);
        // the numbers have 32 bits
        let again = [("a", front(left, 1, u32::MAX - 1), 5), ("b", front(left, 2, 3), 5)];
        assert_eq!(found(left, &again)[1..], []);
    }

    #[test]
    fn a_table_that_was_torn() {
        let day = std::env::temp_dir().join(format!("listed-{}", std::process::id()));
        let _ = fs::remove_dir_all(&day);
        fs::create_dir_all(&day).unwrap();
        let one = front(Side::Right, 7, 41);
        let spoken = Voice::From { first: 0.5, last: 2.25 };
        note_dictation(&day, "a.wav", one, 9, 8, 0.09, spoken).unwrap();
        note_dictation(&day, "b.wav", one, 9, 8, 0.09, Voice::None).unwrap();
        let whole = fs::read_to_string(day.join(TABLE)).unwrap();
        assert_eq!(whole.lines().nth(1), Some("a.wav,right,7,0.09000,41,9,8,0.50,2.25"));
        fs::write(day.join(TABLE), &whole[..whole.len() - 3]).unwrap();
        note_dictation(&day, "c.wav", one, 9, 8, 0.09, Voice::Unknown).unwrap();
        let wanted = [("a.wav", spoken), ("c.wav", Voice::Unknown)];
        assert_eq!(voices(&day), wanted.map(|(file, voice)| (file.to_string(), voice)));
        fs::remove_dir_all(day).unwrap();
    }
}
