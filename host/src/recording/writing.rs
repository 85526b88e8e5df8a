//! One recording being written. Its audio grows in `NAME.part`, whose head already says the side, and its records in
//! `NAME.sheet`, which begins with the same front seal. At its end both become one file, and the judge reads that file
//! as it is on the disk.

use crate::cleaning::recorder::{Side, NOTE};
use crate::error::{At, Error, Reason, Result};
use crate::recording::after::write_after;
use crate::recording::folder::Folder;
use crate::recording::front::{Front, HEAD, MOST, SEAL};
use crate::recording::judge::{judged, Told};
use crate::sys::disk::{sync_all, sync_data};
use crate::telling::refusal::Refusal;
use std::fs::File;
use std::io::{Seek, SeekFrom, Write};
use std::path::{Path, PathBuf};

/// How the name of a recording's records ends.
pub const SHEET: &str = ".sheet";

pub const TOO_LONG: &str = "a WAV file can't hold more than 12 hours and 19 minutes";

pub struct Recording {
    front: Front,
    /// Where it will be, for what is said of it.
    place: PathBuf,
    /// Where it is while it is being written.
    part: PathBuf,
    audio: File,
    sheet: File,
    /// How many bytes of audio there are so far, and their checksum.
    size: u32,
    checksum: u32,
}

impl Recording {
    /// A recording with this name in a folder. It `began` so many seconds after 1970 began, 0 if nobody knows, and its
    /// `first` frame has this number.
    pub fn new(folder: &mut Folder, name: &str, side: Side, began: u64, first: u32) -> Result<Recording> {
        let front = Front { side, began, first };
        let (place, part) = (folder.place(name), folder.part(name));
        let mut audio = folder.create(name)?;
        let (path, mut sheet) = folder.scratch(name, SHEET)?;
        audio.write_all(&front.open_head()).at(&place)?;
        sheet.write_all(&front.seal()).at(&path)?;
        Ok(Recording { front, place, part, audio, sheet, size: 0, checksum: 0 })
    }

    /// The next bytes of its audio.
    pub fn audio(&mut self, bytes: &[u8]) -> Result<()> {
        let size = u32::try_from(bytes.len()).ok().and_then(|more| self.size.checked_add(more));
        let Some(size) = size.filter(|size| *size <= MOST) else { return Err(Error::undone(TOO_LONG).at(&self.place)) };
        if bytes.is_empty() {
            return Ok(());
        }
        self.audio.write_all(bytes).at(&self.place)?;
        self.checksum = tuppence::checksum(self.checksum, bytes);
        self.size = size;
        Ok(())
    }

    /// The records of its next frames, as the library wrote them.
    pub fn records(&mut self, records: &[[u8; NOTE]]) -> Result<()> {
        self.sheet.write_all(records.as_flattened()).at(&self.place)
    }

    /// Whether it has no audio yet.
    pub fn is_empty(&self) -> bool {
        self.size == 0
    }

    /// The files that grow.
    pub fn files(&self) -> [&File; 2] {
        [&self.audio, &self.sheet]
    }

    /// Closes it: the head, which says from then on where the audio ends, and what follows the audio. What the judge
    /// says of the file as it is on the disk comes back, and if it is not accepted, an error. The folder gives it its
    /// place.
    pub fn finish(self) -> Result<Told> {
        let Recording { front, place, part, mut audio, mut sheet, size, checksum } = self;
        let head = front.head(size).at(&place)?;
        audio.rewind().and_then(|()| audio.write_all(&head)).and_then(|()| sync_data(&audio)).at(&place)?;
        audio.seek(SeekFrom::Start(HEAD as u64 + u64::from(size))).at(&place)?;
        sheet.seek(SeekFrom::Start(SEAL as u64)).at(&place)?;
        let found = write_after(&mut audio, front, size, checksum, &mut sheet).at(&place)?;
        sync_all(&audio).at(&place)?;
        match found.lost {
            0 => accepted(&part, front).at(&place),
            lost => {
                Err(Error::undone(format!("the records of {lost} of its frames are not as they should be")).at(&place))
            }
        }
    }
}

/// What the judge says of a file that was written as this recording. It is an error if it is not accepted as that.
pub fn accepted(file: &Path, front: Front) -> Result<Told> {
    let not = |why: Reason| {
        let side = front.side.name();
        Error::Undone(why).reworded(|why| {
            format!("what was written is not accepted as a recording of the {side} side, and gets no place: {why}")
        })
    };
    let told = judged(&mut File::open(file)?)?.map_err(|refusal: Refusal| not(refusal.into()))?;
    match told.front == front {
        true => Ok(told),
        false => Err(not(format!("its head says the {} side", told.front.side.name()).into())),
    }
}

#[cfg(test)]
mod tests {
    use super::*;
    use crate::recording::after::{records_of, HEARD};
    use std::fs;

    /// A folder of its own for a test, and a recording in it with so many bytes of audio.
    fn written(name: &str, side: Side, began: u64, first: u32, size: usize) -> (PathBuf, Folder, Recording) {
        let path = std::env::temp_dir().join(format!("writing-{}-{name}", std::process::id()));
        let _ = fs::remove_dir_all(&path);
        let mut folder = Folder::new(&path, false).unwrap();
        let mut recording = Recording::new(&mut folder, "1.wav", side, began, first).unwrap();
        let bytes: Vec<u8> = (0..size).map(|at| (at * at % 251) as u8).collect();
        bytes.chunks(1_000).for_each(|bytes| recording.audio(bytes).unwrap());
        (path, folder, recording)
    }

    /// Records of frames of a side that number up, each third of them heard.
    fn records(side: Side, first: u32, frames: u32) -> Vec<[u8; NOTE]> {
        let entry = |n: u32| u64::from(first.wrapping_add(n)) | if n.is_multiple_of(3) { HEARD } else { 0 };
        let entries: Vec<u64> = (0..frames).map(entry).collect();
        let bytes = records_of(Front { side, began: 0, first }, &entries).unwrap();
        bytes.chunks_exact(NOTE).map(|record| record.try_into().unwrap()).collect()
    }

    /// What was handed in comes back from the judge: the side, when it began, the first frame, and how many were heard.
    #[test]
    fn what_is_written_is_accepted() {
        for (side, began, first, size, frames) in [
            (Side::Left, 0, 0, 2_000, 4),
            (Side::Right, 1_794_803_400, 41_210, 1_920, 2),
            (Side::Left, 7, u32::MAX, 5_000, 6),
        ] {
            let (path, mut folder, mut recording) = written(&format!("{first}"), side, began, first, size);
            records(side, first, frames).chunks(3).for_each(|records| recording.records(records).unwrap());
            let front = Front { side, began, first };
            // on its way it says its side by itself, twice
            assert!(fs::read(path.join("1.wav.part")).unwrap().starts_with(&front.open_head()));
            assert!(fs::read(path.join("1.wav.sheet")).unwrap().starts_with(&front.seal()));
            let heard = u64::from(frames).div_ceil(3);
            assert_eq!(recording.finish(), Ok(Told { front, frames: frames.into(), heard }));
            folder.keep().unwrap();
            let names: Vec<_> = fs::read_dir(&path).unwrap().map(|file| file.unwrap().file_name()).collect();
            assert_eq!(names, ["1.wav"]);
            fs::remove_dir_all(path).unwrap();
        }
    }

    /// A frame too few, one too many, a wrong number, and no audio at all: nothing of that gets a place.
    #[test]
    fn what_is_no_recording_is_not_accepted() {
        let finished = |name: &str, records: &[[u8; NOTE]]| {
            let (path, _folder, mut recording) = written(name, Side::Right, 0, 0, 2_000);
            recording.records(records).unwrap();
            let why = recording.finish().unwrap_err().to_string();
            assert!(why.starts_with(&path.join("1.wav").display().to_string()), "{why}");
            why
        };
        let right = |first, frames| records(Side::Right, first, frames);
        assert!(finished("few", &right(0, 3)).contains("the records of 1 of its frames are not as they should be"));
        assert!(finished("number", &right(1, 4)).contains("the records of 4 of its frames"));
        assert!(finished("side", &records(Side::Left, 0, 4)).contains("the records of 4 of its frames"));
        let (_, _folder, recording) = written("none", Side::Right, 0, 0, 0);
        assert!(recording.is_empty() && recording.finish().is_err());
    }

    /// What is on the disk is judged, and not what was meant to be written.
    #[test]
    fn what_is_on_the_disk_is_judged() {
        let (path, folder, mut recording) = written("disk", Side::Right, 0, 0, 2_000);
        recording.records(&records(Side::Right, 0, 4)).unwrap();
        let front = recording.front;
        recording.finish().unwrap();
        let part = folder.part("1.wav");
        let whole = fs::read(&part).unwrap();
        assert_eq!(whole.len(), HEAD + 2_000 + 32 + 8 * 4 + 16);
        let left = Front { side: Side::Left, ..front };
        let other = "is not accepted as a recording of the left side, and gets no place: its head says the right side";
        assert!(accepted(&part, left).unwrap_err().to_string().contains(other));
        for place in [0, 50, 100, 2_080, 2_120, whole.len() - 1] {
            let mut changed = whole.clone();
            changed[place] ^= 1;
            fs::write(&part, changed).unwrap();
            let why = accepted(&part, front).unwrap_err();
            assert!(why.refusal().is_some_and(|refusal| (61..=65).contains(&refusal.0)), "{why}");
        }
        drop(folder);
        let _ = fs::remove_dir_all(path);
    }

    /// The sizes of a head have 32 bits: what would go beyond them is not written.
    #[test]
    fn more_than_a_file_can_hold() {
        let (path, _folder, mut recording) = written("long", Side::Left, 0, 0, 0);
        recording.size = MOST - 4;
        assert!(
            recording.audio(&[1; 6]).is_err() && recording.audio(&[1; 4]).is_ok() && recording.audio(&[1; 2]).is_err()
        );
        let _ = fs::remove_dir_all(path);
    }
}
