//! Recordings that a run left unfinished, as where the power failed: `left.wav.part`, with its records in
//! `left.wav.sheet`. Both begin with the side, and so does the name: where these disagree, nothing is closed.

use crate::cleaning::recorder::Side;
use crate::error::{At, Error, Result};
use crate::reading::wav;
use crate::recording::after::{look_after, write_after, Rebuilt};
use crate::recording::files::{self, recording};
use crate::recording::front::{seal_in, size_in, Front, HEAD, MOST, OPEN, SEAL};
use crate::recording::judge::Told;
use crate::recording::listed::{begun, originals};
use crate::recording::mend::rewritten;
use crate::recording::place::{beside, is_taken};
use crate::recording::writing::accepted;
use crate::sys::disk::{sync_all, sync_data};
use crate::telling::names;
use crate::telling::shown::{quoted, shown};
use crate::{FRAME, RATE};
use std::fmt;
use std::fs::{self, File};
use std::io::{self, Read, Seek, SeekFrom, Write};
use std::path::{Path, PathBuf};

/// How the names end of a file on its way to its place, and of its records.
pub const PART: &str = ".part";
pub use crate::recording::writing::SHEET;

/// The recordings that a run may be writing into a folder: one of each side, those in which these go on, and the
/// dictations in the folders of its days.
pub fn recordings(folder: &Path) -> Vec<PathBuf> {
    Side::BOTH.map(|side| folder.join(recording(side))).into_iter().chain(begun(folder)).collect()
}

/// What a run may leave beside the recordings' places.
fn of_recordings(folder: &Path) -> impl Iterator<Item = PathBuf> {
    recordings(folder).into_iter().flat_map(|place| [PART, SHEET].map(|ending| beside(&place, ending)))
}

/// What it may leave of the table, of the picture and so on.
pub fn of_others(folder: &Path) -> impl Iterator<Item = PathBuf> {
    let others = [files::TABLE, files::PICTURE, files::PAGE].map(String::from).into_iter();
    let place = |name: String| beside(&folder.join(name), PART);
    let others: Vec<PathBuf> = others.chain(Side::BOTH.map(files::before)).map(place).collect();
    others.into_iter().chain(originals(folder))
}

/// What a run did leave in a folder.
pub fn left_over(folder: &Path) -> Option<PathBuf> {
    of_recordings(folder).chain(of_others(folder)).find(|path| is_taken(path))
}

/// The command that closes what lies in a folder, as a shell takes it.
pub fn mend_command(folder: &Path) -> String {
    format!("`box mend {}`", quoted(folder))
}

/// Refuses a folder with unfinished recordings, and tells how to close them.
pub fn refuse(folder: &Path) -> Result<()> {
    let Some(first) = left_over(folder) else { return Ok(()) };
    let name = first.file_name().unwrap_or_default().to_string_lossy().into_owned();
    let why = format!("{name} is of a run that was not finished; {} closes what it recorded", mend_command(folder));
    Err(Error::undone(why).at(folder))
}

/// A file, and no link to another.
pub fn open_ours(path: &Path) -> Result<File> {
    let about = fs::symlink_metadata(path).at(path)?;
    if !about.is_file() {
        return Err(not_ours(path));
    }
    File::options().read(true).write(true).open(path).at(path)
}

fn not_ours(path: &Path) -> Error {
    Error::undone("this is no file that the box wrote; it stays as it is").at(path)
}

/// The first bytes of a file, so many at most.
fn first_bytes(file: &mut File, most: usize) -> io::Result<Vec<u8>> {
    let mut bytes = Vec::new();
    file.rewind()?;
    file.take(most as u64).read_to_end(&mut bytes)?;
    Ok(bytes)
}

/// Whether some bytes are the beginning of these, or have zeros in their place, as a power cut may leave them.
fn alike(bytes: &[u8], ours: &[u8]) -> bool {
    bytes.iter().zip(ours).all(|(byte, ours)| byte == ours || *byte == 0)
}

/// How many of the last seconds of some audio are zeros: none if these are less than a frame, and ten at most.
pub fn zeros(file: &mut File, place: u64, size: u64) -> io::Result<f64> {
    let looked = size.min(20 * u64::from(RATE));
    let mut bytes = vec![0; looked as usize];
    file.seek(SeekFrom::Start(place + size - looked))?;
    file.read_exact(&mut bytes)?;
    let zeros = bytes.chunks_exact(2).rev().take_while(|sample| **sample == [0, 0]).count();
    Ok(if zeros >= FRAME { seconds_of(2 * zeros as u64) } else { 0.0 })
}

fn seconds_of(bytes: u64) -> f64 {
    bytes as f64 / 2.0 / f64::from(RATE)
}

/// What the head of a file on its way says, if it is whole: its front, and the size of its audio, or that it is open.
fn whole_head(head: &[u8]) -> Option<(Front, u32)> {
    let head: &[u8; HEAD] = head.try_into().ok()?;
    let (front, size) = (Front::read(&seal_in(head)).ok()?, size_in(head));
    (front.head(size) == Ok(*head)).then_some((front, size))
}

/// Both files of a recording on its way, as far as they begin with what the box writes.
struct Pair {
    audio: File,
    /// What its head says.
    head: Option<(Front, u32)>,
    sheet: Option<File>,
    /// What the seal at the start of its records says.
    seal: Option<Front>,
}

impl Pair {
    fn open(part: &Path, sheet: &Path) -> Result<Pair> {
        let mut audio = open_ours(part)?;
        let mut records = if is_taken(sheet) { Some(open_ours(sheet)?) } else { None };
        let first = first_bytes(&mut audio, HEAD).at(part)?;
        let front = records.as_mut().map_or(Ok(vec![]), |file| first_bytes(file, SEAL)).at(sheet)?;
        let (head, seal) = (whole_head(&first), Front::read(&front).ok());
        // where one of them is whole, the other is that or zeros; a front of any side begins alike
        let any = Front { side: Side::Left, began: 0, first: 0 };
        let known = head.map(|(front, _)| front).or(seal);
        let of_head = known.map_or(any.open_head()[..SEAL].to_vec(), |front| front.open_head().to_vec());
        let of_seal = known.map_or(any.seal()[..4].to_vec(), |front| front.seal().to_vec());
        if head.is_none() && !alike(&first, &of_head) {
            return Err(not_ours(part));
        }
        if seal.is_none() && !alike(&front, &of_seal) {
            return Err(not_ours(sheet));
        }
        Ok(Pair { audio, head, sheet: records, seal })
    }

    /// How many bytes of audio there are. Where the recording was about to be closed, its head says it.
    fn size(&self) -> io::Result<u32> {
        let here = self.audio.metadata()?.len().saturating_sub(HEAD as u64).min(MOST.into()) as u32;
        let said = self.head.map(|(_, size)| size).filter(|size| *size != OPEN);
        let size = said.map_or(here, |said| said.min(here));
        Ok(size - size % 2)
    }

    /// The side and so on. The head says it, and the seal of the records, and both alike.
    fn front(&self, part: &Path, sheet: &Path) -> Result<Front> {
        match (self.head.map(|(front, _)| front), self.seal) {
            (Some(head), Some(seal)) if head.side != seal.side => {
                let (head, seal) = (head.side.name(), seal.side.name());
                Err(mixed(part, format!("its head says {head}, but {} says {seal}", shown(sheet))))
            }
            (Some(head), Some(seal)) if head != seal => {
                Err(mixed(part, format!("{} is of another recording of the same side", shown(sheet))))
            }
            (Some(front), _) | (None, Some(front)) => Ok(front),
            (None, None) => {
                let why = "neither its head nor its records tell its side; it stays until you move it";
                Err(Error::undone(why).at(part))
            }
        }
    }
}

/// What belongs to different sides is together here: nothing of the folder is closed.
fn mixed(part: &Path, why: String) -> Error {
    Error::wrong(format!("{why}; nothing is closed, and all files stay as they are")).at(part)
}

/// A recording that was not finished.
pub struct Unfinished {
    pub front: Front,
    audio: File,
    sheet: Option<File>,
    size: u32,
    found: Rebuilt,
    /// What the judge says, if only its place is missing.
    finished: Option<Told>,
}

/// The records, as far as they are there.
fn records(sheet: &mut Option<File>) -> io::Result<Box<dyn Read + '_>> {
    Ok(match sheet {
        Some(file) => {
            file.seek(SeekFrom::Start(SEAL as u64))?;
            Box::new(file)
        }
        None => Box::new(io::empty()),
    })
}

impl Unfinished {
    /// What a run left of the recording that was to get this place; nothing where nothing was recorded yet.
    pub fn find(place: &Path) -> Result<Option<Unfinished>> {
        let (part, sheet) = (beside(place, PART), beside(place, SHEET));
        let pair = Pair::open(&part, &sheet)?;
        let size = pair.size().at(&part)?;
        if size == 0 {
            return Ok(None);
        }
        let front = pair.front(&part, &sheet)?;
        if let Some((named, whose)) = names::meant(place).filter(|(named, _)| *named != front.side) {
            let (named, side) = (named.name(), front.side.name());
            return Err(mixed(&part, format!("its {whose} says {named}, but its head says {side}")));
        }
        let Pair { audio, sheet: mut file, .. } = pair;
        if let Ok(told) = accepted(&part, front) {
            let (found, finished) = (Rebuilt::default(), Some(told));
            return Ok(Some(Unfinished { front, audio, sheet: file, size, found, finished }));
        }
        let found = look_after(front, size, &mut records(&mut file).at(&sheet)?).at(&sheet)?;
        if found.is_mixed() {
            let (side, other) = (front.side.name(), front.side.other().name());
            return Err(mixed(&part, format!("its head says {side}, but records in {} say {other}", shown(&sheet))));
        }
        Ok(Some(Unfinished { front, audio, sheet: file, size, found, finished: None }))
    }

    /// Closes the recording as `box clean` does: head, audio, seal, records. From the first step on the head says where
    /// the audio ends. The judge must accept it as it is on the disk.
    pub fn close(&mut self, part: &Path) -> Result<Told> {
        if let Some(told) = self.finished {
            return Ok(told);
        }
        let end = HEAD as u64 + u64::from(self.size);
        let head = self.front.head(self.size).at(part)?;
        let file = &mut self.audio;
        file.seek(SeekFrom::Start(HEAD as u64)).at(part)?;
        let (_, checksum) = wav::checksum(file, self.size.into()).at(part)?;
        file.rewind().and_then(|()| file.write_all(&head)).and_then(|()| sync_data(file)).at(part)?;
        file.set_len(end).and_then(|()| file.seek(SeekFrom::Start(end))).at(part)?;
        write_after(file, self.front, self.size, checksum, &mut records(&mut self.sheet).at(part)?).at(part)?;
        sync_all(&self.audio).at(part)?;
        accepted(part, self.front).at(part)
    }

    /// What a clerk is told of it, besides what it became.
    pub fn kept(&mut self) -> io::Result<Kept> {
        let zeros = zeros(&mut self.audio, HEAD as u64, self.size.into())?;
        Ok(Kept { seconds: seconds_of(self.size.into()), rewritten: self.found.lost, zeros })
    }
}

/// What is kept of an unfinished recording.
pub struct Kept {
    pub seconds: f64,
    /// How many frames had no record.
    pub rewritten: u64,
    /// The last seconds that are zeros, where these are a frame or more.
    pub zeros: f64,
}

impl fmt::Display for Kept {
    fn fmt(&self, f: &mut fmt::Formatter) -> fmt::Result {
        write!(f, "Kept {:.2} s.{}", self.seconds, rewritten(self.rewritten))?;
        if self.zeros > 0.0 {
            write!(f, " The last {:.2} s are zeros, as a power cut may leave them.", self.zeros)?;
        }
        Ok(())
    }
}

#[cfg(test)]
mod tests {
    use super::*;

    #[test]
    fn a_command_that_can_be_pasted() {
        let told = |path: &str| mend_command(Path::new(path));
        assert_eq!(told("out/2024-11"), "`box mend out/2024-11`");
        assert_eq!(told("the fitter's"), r"`box mend 'the fitter'\''s'`");
    }
}
