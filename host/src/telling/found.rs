//! What is found in a file that the judge did not accept: seals and side sheets, each looked for by itself. Nothing of
//! it is told as the side of a file. It is for hints, for `mend`, and for `clean`, which refuses a recording in which
//! anything says the other bench. Whatever lengths a file claims, it is read in parts.

use crate::cleaning::recorder::Side;
use crate::reading::wav::{self, Audio, Fault};
use crate::recording::after::{is_sheet, RECORD, TRAILER};
use crate::recording::front::{seal_in, Front, CHUNK, HEAD, SEAL};
use crate::recording::seal::Seal;
use crate::telling::refusal::Refusal;
use std::io::{self, Read, Seek, SeekFrom};

/// The side sheet at the end of a file.
#[derive(Clone, Copy, Debug, PartialEq)]
pub struct Sheet {
    pub side: Side,
    pub frames: u64,
    /// Where its records start.
    pub start: u64,
}

pub struct Found {
    /// The bytes of the file.
    pub size: u64,
    /// Its first bytes, if it has as many as a head.
    pub head: Option<[u8; HEAD]>,
    /// What its front seal says, if it is whole.
    pub front: Option<Front>,
    /// Where the audio is, as the header says.
    pub audio: Result<Audio, Fault>,
    /// The end seal, if a chunk of its name is where the audio ends.
    pub seal: Option<Result<Seal, Refusal>>,
    pub sheet: Option<Sheet>,
    /// A whole end seal before the records of the sheet, wherever these are.
    pub before: Option<Seal>,
}

/// At most so many bytes from a place on.
pub fn bytes_at(file: &mut (impl Read + Seek), place: u64, most: usize) -> io::Result<Vec<u8>> {
    let mut bytes = Vec::new();
    file.seek(SeekFrom::Start(place))?;
    file.take(most as u64).read_to_end(&mut bytes)?;
    Ok(bytes)
}

/// The number at a place of some bytes; 0 if they end before it.
fn number(bytes: &[u8], at: usize) -> u32 {
    bytes.get(at..).and_then(|bytes| bytes.first_chunk()).map_or(0, |number| u32::from_le_bytes(*number))
}

/// The side sheet at the end of a file. Its frames number up from any first one.
fn sheet_at_end(file: &mut (impl Read + Seek)) -> io::Result<Option<Sheet>> {
    let size = file.seek(SeekFrom::End(0))?;
    let Some(end) = size.checked_sub(TRAILER as u64) else { return Ok(None) };
    let trailer = bytes_at(file, end, TRAILER)?;
    let (distance, frames) = (u64::from(number(&trailer, 0)), u64::from(number(&trailer, 4)));
    let side = Side::BOTH.into_iter().find(|side| number(&trailer, 8) == *side as u32);
    let start = end.checked_sub(distance).filter(|_| distance == RECORD as u64 * frames && frames > 0);
    let (Some(side), Some(start)) = (side, start) else { return Ok(None) };
    let first = number(&bytes_at(file, start, RECORD)?, 0);
    file.seek(SeekFrom::Start(start))?;
    let is_one =
        is_sheet(Front { side, began: 0, first }, frames, file).map_err(|why| io::Error::other(why.to_string()))?;
    Ok(is_one.then_some(Sheet { side, frames, start }))
}

impl Found {
    pub fn of(file: &mut (impl Read + Seek)) -> io::Result<Found> {
        let size = file.seek(SeekFrom::End(0))?;
        let head: Option<[u8; HEAD]> = bytes_at(file, 0, HEAD)?.try_into().ok();
        file.rewind()?;
        let audio = match wav::audio(&mut *file) {
            Err(Fault::Unreadable(why)) => return Err(io::Error::other(why)),
            audio => audio,
        };
        let chunk = audio.as_ref().map_or(Ok(vec![]), |audio| bytes_at(file, audio.end(), CHUNK))?;
        let seal = chunk.strip_prefix(b"side").and_then(|rest| rest.get(4..)).map(Seal::read);
        let sheet = sheet_at_end(file)?;
        let place = sheet.and_then(|sheet| sheet.start.checked_sub(SEAL as u64));
        let before = place.map(|place| bytes_at(file, place, SEAL)).transpose()?;
        let before = before.and_then(|seal| Seal::read(&seal).ok());
        Ok(Found {
            size,
            head,
            front: head.and_then(|head| Front::read(&seal_in(&head)).ok()),
            audio,
            seal,
            sheet,
            before,
        })
    }

    /// The sides that it says, and what says them.
    pub fn sides(&self) -> impl Iterator<Item = (&'static str, Side)> {
        let end = self.seal.and_then(Result::ok).or(self.before);
        let said = [
            ("its seal", self.front.map(|front| front.side)),
            ("its seal", end.map(|seal| seal.side)),
            ("its side sheet", self.sheet.map(|sheet| sheet.side)),
        ];
        said.into_iter().filter_map(|(what, side)| Some((what, side?)))
    }
}

/// Whether some audio is the one that a seal was written for.
pub fn is_of(seal: Seal, audio: Audio, file: &mut (impl Read + Seek)) -> io::Result<bool> {
    file.seek(SeekFrom::Start(audio.place))?;
    Ok(wav::checksum(file, audio.size)? == (seal.bytes, seal.checksum))
}

/// What follows the end of a recording in its file.
#[derive(Clone, Copy, Debug, PartialEq)]
pub enum Follows {
    Nothing,
    /// This many bytes, such as a tag.
    Bytes(u64),
    /// Another recording.
    Recording,
}

/// What follows a recording that ends here.
pub fn follows(file: &mut (impl Read + Seek), end: u64) -> io::Result<Follows> {
    let size = file.seek(SeekFrom::End(0))?;
    let next = bytes_at(file, end, 12)?;
    let is_wave = next.starts_with(b"RIFF") && next.ends_with(b"WAVE");
    Ok(match size.saturating_sub(end) {
        0 => Follows::Nothing,
        _ if is_wave => Follows::Recording,
        bytes => Follows::Bytes(bytes),
    })
}
