//! A bench's recordings in a row. The sizes of a WAV file have 32 bits, so a recording is full after 12 hours and 19
//! minutes: then the next one begins with the next frame, and the full one is closed beside the work. The audio of all,
//! in a row, is that of one recording.

use crate::cleaning::recorder::{Side, NOTE};
use crate::error::{Error, Result};
use crate::recording::folder::Folder;
use crate::recording::judge::Told;
use crate::recording::place::is_taken;
use crate::recording::writing::Recording;
use crate::FRAME;
use std::fs::File;
use std::thread::{spawn, JoinHandle};

/// The bytes of a frame's audio.
pub const BYTES: u64 = 2 * FRAME as u64;

/// The frame with which a recording is full, if it begins with this one and may have so many bytes of audio. Frames are
/// counted from the opening.
pub fn full_at(first: u64, most: u32) -> u64 {
    // the first frame after an opening brings no audio
    let full = first + u64::from(most) / BYTES + u64::from(first as u32 == 0);
    // numbers have 32 bits, and only a recording that begins with an opening begins with the number 0
    full - u64::from(full as u32 == 0)
}

/// The recording that is under way, and those before it.
pub struct Rolling {
    side: Side,
    /// What it is called, without `.wav`.
    stem: String,
    began: u64,
    recording: Recording,
    /// The first frame of the recording, and the next one, counted from the opening.
    first: u64,
    next: u64,
    /// The most bytes of audio that a recording may have.
    pub most: u32,
    /// Those that are being closed.
    closing: Vec<JoinHandle<Result<Told>>>,
    /// The names of all but the first.
    pub more: Vec<String>,
}

impl Rolling {
    pub fn new(folder: &mut Folder, stem: &str, side: Side, began: u64, most: u32) -> Result<Rolling> {
        let recording = Recording::new(folder, &format!("{stem}.wav"), side, began, 0)?;
        let (closing, more) = (vec![], vec![]);
        Ok(Rolling { side, stem: stem.into(), began, recording, first: 0, next: 0, most, closing, more })
    }

    /// The next frames, by their records, and their audio. Whether another recording has begun.
    pub fn write(&mut self, folder: &mut Folder, mut records: &[[u8; NOTE]], mut audio: &[u8]) -> Result<bool> {
        let before = self.more.len();
        while !records.is_empty() {
            if self.next == full_at(self.first, self.most) {
                self.roll(folder)?;
            }
            let room = (full_at(self.first, self.most) - self.next) as usize;
            let (now, later) = records.split_at(room.min(records.len()));
            let sounding = now.len() - usize::from(self.next == 0);
            let (sound, rest) = audio.split_at(audio.len().min(BYTES as usize * sounding));
            self.recording.records(now)?;
            self.recording.audio(sound)?;
            self.next += now.len() as u64;
            (records, audio) = (later, rest);
        }
        Ok(self.more.len() > before)
    }

    /// Begins another recording with the next frame.
    fn roll(&mut self, folder: &mut Folder) -> Result<()> {
        let numbers = self.more.len() as u32 + 2..;
        let mut names = numbers.map(|number| format!("{}-{number}.wav", self.stem));
        let name = names.find(|name| !is_taken(&folder.place(name))).expect("there is always another name");
        let seconds = (self.next - 1) * FRAME as u64 / u64::from(crate::RATE);
        // 0 is that nobody knows
        let began = if self.began == 0 { 0 } else { self.began + seconds };
        let next = Recording::new(folder, &name, self.side, began, self.next as u32)?;
        let full = std::mem::replace(&mut self.recording, next);
        self.closing.push(spawn(move || full.finish()));
        self.first = self.next;
        self.more.push(name);
        Ok(())
    }

    pub fn is_empty(&self) -> bool {
        self.more.is_empty() && self.recording.is_empty()
    }

    /// The files that grow.
    pub fn files(&self) -> [&File; 2] {
        self.recording.files()
    }

    /// Closes all of them.
    pub fn finish(self) -> Result<()> {
        for work in self.closing {
            work.join().unwrap_or_else(|_| Err(Error::undone("a recording can't be closed")))?;
        }
        self.recording.finish().map(|_| ())
    }
}

#[cfg(test)]
mod tests {
    use super::*;

    /// One more frame fits where the first brings no audio, and no recording begins with the number 0 but at an
    /// opening.
    #[test]
    fn when_a_recording_is_full() {
        assert_eq!([full_at(0, 9_600), full_at(7, 9_600), full_at(7, 10_559)], [11, 17, 17]);
        let again = 1u64 << 32;
        assert_eq!([full_at(again - 10, 9_600), full_at(again - 9, 9_600)], [again - 1, again + 1]);
        assert_eq!(full_at(0, crate::recording::front::MOST), 4_436_950);
    }
}
