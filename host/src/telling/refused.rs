//! Why a file is not accepted as a recording, in a clerk's words, and what can be done about it. If the file can be
//! read again, a second look tells more. What came through a pipe is gone.

use crate::error::Error;
use crate::recording::front::{size_in, Front, CHUNK, HEAD};
use crate::recording::seal::Seal;
use crate::recording::unfinished::{mend_command, PART};
use crate::telling::found::{bytes_at, follows, Follows, Found};
use crate::telling::refusal::Refusal;
use crate::telling::shown::quoted;
use crate::RATE;
use std::io::{self, Read, Seek};
use std::path::Path;

pub const ELSEWHERE: &str = "its seal is not where its audio ends: bytes were added or taken away";
pub const OTHER_AUDIO: &str = "its audio is not the one that it was sealed with";

/// The command that mends a file, and what it does.
fn mend(path: &Path, more: &str, does: &str) -> String {
    format!("`box mend {}{more} --out NEW.wav` {does}", quoted(path))
}

/// The status of a refusal: what is no recording at all, or one that is not as it was written.
fn as_error(refusal: Refusal) -> Error {
    match refusal {
        Refusal(61) => Error::NoRecording(refusal.into()),
        _ => Error::Damaged(refusal.into()),
    }
}

/// A refused file, and where it is.
struct Refused<'a, F> {
    file: &'a mut F,
    path: &'a Path,
    refusal: Refusal,
}

/// Why a file was refused.
pub fn why_not(file: &mut (impl Read + Seek), path: &Path, refusal: Refusal) -> Error {
    let mut refused = Refused { file, path, refusal };
    let again = refused.file.stream_position().and_then(|_| refused.second_look());
    again.ok().flatten().unwrap_or_else(|| as_error(refusal))
}

impl<F: Read + Seek> Refused<'_, F> {
    fn second_look(&mut self) -> io::Result<Option<Error>> {
        let found = Found::of(self.file)?;
        let (Some(head), Some(front)) = (found.head, found.front) else { return Ok(self.without_front(&found)) };
        Ok(Some(match self.refusal.0 {
            61 => self.other_head(&head, front),
            62 => self.cut(found.size, &head),
            63 => self.seal(found.size, &head, front)?,
            64 | 65 => self.damaged(&self.mended("writes them anew")),
            _ => self.followed(&head)?,
        }))
    }

    /// What is said of a recording that is not as it was written, in the place of the refusal's own words.
    fn reworded(&self, why: &str) -> Error {
        Error::Damaged(self.refusal.into()).reworded(|_| format!("{why} (refusal {})", self.refusal.0))
    }

    /// The refusal's own words, and then a command.
    fn damaged(&self, command: &str) -> Error {
        Error::Damaged(self.refusal.into()).reworded(|why| format!("{why}; {command}"))
    }

    fn mended(&self, does: &str) -> String {
        mend(self.path, "", does)
    }

    /// No front seal: another program's file, one of an earlier version of the box, or a damaged head.
    fn without_front(&self, found: &Found) -> Option<Error> {
        let earlier = found.audio.as_ref().is_ok_and(|audio| audio.place < HEAD as u64);
        let is_ours = found.audio.as_ref().is_ok_and(|audio| audio.is_ours);
        Some(match (found.seal, found.before, found.sheet) {
            (Some(Ok(_)), ..) if !is_ours => self.reworded("another program wrote it in another form"),
            (Some(Ok(_)), ..) if earlier => Error::Unsealed(self.refusal.into()).reworded(|_| {
                let command = self.mended("checks it and writes it as this version does");
                format!("an earlier version of the box sealed it; {command}")
            }),
            (Some(Ok(_)), ..) => self.reworded(&format!("its front seal is damaged; {}", self.mended("restores it"))),
            (Some(Err(refused)), ..) => Error::Damaged(refused.into()),
            (None, Some(_), _) => self.reworded(ELSEWHERE),
            (None, None, Some(_)) => Error::Unsealed(self.refusal.into()).reworded(|_| {
                let command = mend(self.path, " --as left", "(or `--as right`) seals it");
                format!("a side sheet without a seal tells no side; if somebody knows the side, {command}")
            }),
            (None, None, None) => return None,
        })
    }

    /// The front seal is whole, but the head is not what the box writes before audio of any length.
    fn other_head(&self, head: &[u8; HEAD], front: Front) -> Error {
        let folder = self.path.parent().filter(|folder| *folder != Path::new("")).unwrap_or(Path::new("."));
        let is_part = self.path.to_string_lossy().ends_with(PART);
        match *head == front.open_head() {
            true if is_part => self.reworded(&format!("it was not finished; {} closes it", mend_command(folder))),
            true => self.reworded(&format!("it was not finished; {}", self.mended("closes it"))),
            false => self.reworded(&format!("its head was changed; {}", self.mended("restores it"))),
        }
    }

    /// It ends within its audio.
    fn cut(&self, size: u64, head: &[u8; HEAD]) -> Error {
        let seconds = |bytes: u64| bytes as f64 / 2.0 / f64::from(RATE);
        let (there, all) = (seconds(size.saturating_sub(HEAD as u64)), seconds(size_in(head).into()));
        let why = format!("the file ends after {there:.2} of the {all:.2} s of its audio");
        self.reworded(&format!("{why}; {}", self.mended("closes it there")))
    }

    /// What is between its audio and its records is not what it should be.
    fn seal(&mut self, size: u64, head: &[u8; HEAD], front: Front) -> io::Result<Error> {
        let end = HEAD as u64 + u64::from(size_in(head));
        let chunk = bytes_at(self.file, end, CHUNK)?;
        Ok(match chunk.get(8..).map(Seal::read) {
            _ if size < end + CHUNK as u64 => {
                self.reworded(&format!("the file ends where its audio does; {}", self.mended("closes it")))
            }
            Some(Ok(seal)) if seal.side != front.side => {
                let (front, end) = (front.side.name(), seal.side.name());
                self.reworded(&format!("its front seal says {front}, and its end seal {end}"))
            }
            Some(Ok(_)) => self.reworded(OTHER_AUDIO),
            Some(Err(refused)) => Error::Damaged(refused.into()),
            None => as_error(self.refusal),
        })
    }

    /// Something follows its end, which its head says.
    fn followed(&mut self, head: &[u8; HEAD]) -> io::Result<Error> {
        let length = u32::from_le_bytes([head[4], head[5], head[6], head[7]]);
        Ok(match follows(self.file, 8 + u64::from(length))? {
            Follows::Recording => {
                self.reworded(&format!("another recording was joined to its end; {}", self.mended("keeps the first")))
            }
            Follows::Bytes(bytes) => {
                let bytes = if bytes == 1 { "1 byte was".into() } else { format!("{bytes} bytes were") };
                let why = format!("another program changed it: {bytes} added after its end, such as a tag");
                self.reworded(&format!("{why}; {}", self.mended("restores it")))
            }
            Follows::Nothing => as_error(self.refusal),
        })
    }
}
