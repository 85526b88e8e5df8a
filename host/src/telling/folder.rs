//! `box side DIR`: the recordings of a folder and of the days in it by time, and what is missing between them.

use crate::cleaning::recorder::Side;
use crate::error::{Error, Result};
use crate::page::day::frames;
use crate::recording::judge::Told;
use crate::recording::listed::{head_of, missing, sort, wavs, Missing};
use crate::telling::shown::shown;
use crate::telling::side::told_of;
use std::path::{Path, PathBuf};

/// The WAV files of a folder and of the days in it. Recordings come by the time at which they began, and others behind
/// them.
fn recordings_in(folder: &Path) -> Vec<PathBuf> {
    let (mut recordings, mut others) = (vec![], vec![]);
    for path in wavs(folder).into_iter().map(|name| folder.join(name)) {
        match head_of(&path) {
            Some((front, _)) => recordings.push((front, path)),
            None => others.push(path),
        }
    }
    sort(&mut recordings, |(front, path)| (*front, path));
    recordings.into_iter().map(|(_, path)| path).chain(others).collect()
}

/// Frames of a bench that are in no recording, or in two.
fn told_missing(missing: &Missing) -> Error {
    let Missing { side, frames: [from, to], between: (before, behind) } = missing;
    let many = u64::from(to.wrapping_sub(*from)) + 1;
    let place = match before {
        Some(before) => format!("between {} and {}", shown(before), shown(behind)),
        None => format!("before {}", shown(behind)),
    };
    let (side, frames) = (side.name(), frames(*from, many));
    match to < from {
        // the later recording begins before the earlier one ends
        true => Error::wrong(format!("{side} side: {} does not follow the recording before it", shown(behind))),
        false => Error::wrong(format!("{side} side: {frames} are missing, {place}")),
    }
}

/// Looks at each recording of a folder, by time, and hands it on. What is missing between them comes back.
pub fn look_into(folder: &Path, mut each: impl FnMut(&Path, Result<Told>)) -> Vec<Error> {
    let (paths, mut told) = (recordings_in(folder), vec![]);
    if paths.is_empty() {
        return vec![Error::undone("there is no recording in this folder").at(folder)];
    }
    for path in paths {
        let looked = told_of(&path);
        told.extend(looked.as_ref().ok().map(|told| (path.clone(), *told)));
        each(&path, looked);
    }
    let all = || told.iter().map(|(path, told)| (&**path, told.front, told.frames));
    let missing = Side::BOTH.into_iter().flat_map(|side| missing(side, all()));
    missing.map(|missing| told_missing(&missing).at(folder)).collect()
}
