//! `box side FILE..`: whose recording it is. The library's judge reads the file from its first byte to its last, and a
//! side is told only of a file that it accepts.

use crate::error::{Error, Result};
use crate::page::grouped;
use crate::recording::judge::{judged, Told};
use crate::telling::folder::look_into;
use crate::telling::moment::moment;
use crate::telling::names::means_another;
use crate::telling::refused::why_not;
use crate::telling::shown::line_of;
use std::fmt;
use std::fs::File;
use std::path::{Path, PathBuf};

impl fmt::Display for Told {
    fn fmt(&self, f: &mut fmt::Formatter) -> fmt::Result {
        let (front, last) = (self.front, self.front.first.wrapping_add(self.frames as u32).wrapping_sub(1));
        write!(f, "{} side, ", front.side.name())?;
        match front.first {
            0 => write!(f, "{} frames", self.frames)?,
            first => write!(f, "frames {} to {}", grouped(first.into()), grouped(last.into()))?,
        }
        write!(f, ", {} heard, no gap", self.heard)?;
        match front.began {
            0 => Ok(()),
            began => write!(f, ", begun {}", moment(began)),
        }
    }
}

/// A recording that the judge accepts, and whose name says no other side. `-` is standard input.
pub fn told_of(path: &Path) -> Result<Told> {
    let mut file = File::open(if path == Path::new("-") { Path::new("/dev/stdin") } else { path })?;
    let told = judged(&mut file)?.map_err(|refusal| why_not(&mut file, path, refusal))?;
    match means_another(path, told.front.side) {
        Some(whose) => Err(Error::Misnamed(format!("the {whose} says another side: {told}").into())),
        None => Ok(told),
    }
}

/// A line for each recording, those of a folder by time. The other files come back, each with the reason, and with the
/// highest status.
pub fn tell_sides(paths: &[PathBuf]) -> Result<()> {
    let mut bad = vec![];
    for path in paths {
        let mut tell = |path: &Path, told: Result<Told>| match told {
            Ok(told) => crate::say!("{}", line_of(path, format!("{told}; sealed"))),
            Err(error) => bad.push(error.at(path)),
        };
        if path.is_dir() {
            let missing = look_into(path, tell);
            bad.extend(missing);
        } else {
            tell(path, told_of(path));
        }
    }
    Error::several(bad)
}

#[cfg(test)]
mod tests {
    use super::*;
    use crate::cleaning::recorder::Side;
    use crate::recording::front::Front;

    #[test]
    fn a_recording_in_words() {
        let told = |began: u64, first: u32| {
            let front = Front { side: Side::Right, began, first };
            Told { front, frames: 11_092, heard: 9 }.to_string()
        };
        assert_eq!(told(0, 0), "right side, 11092 frames, 9 heard, no gap");
        assert_eq!(told(0, 41_210), "right side, frames 41,210 to 52,301, 9 heard, no gap");
        let begun = "right side, frames 4,294,967,295 to 11,090, 9 heard, no gap, begun 2026-11-16 04:30:00 UTC";
        assert_eq!(told(1_794_803_400, u32::MAX), begun);
    }
}
