//! A dictation as it was before cleaning: a plain WAV file of one channel and 16 bits, without a seal. It lies in a
//! folder `before` beside the dictations of its day, under the same name.

use crate::error::{At, Result};
use crate::reading::block::packed;
use crate::reading::wav;
use crate::recording::folder::Folder;
use crate::recording::listed::BEFORE;
use crate::sys::disk::sync_all;
use crate::RATE;
use std::fs::File;
use std::io::{self, Seek, Write};
use std::path::{Path, PathBuf};

const HEAD: usize = 44;

/// The bytes in front of so many bytes of sound.
fn original_head(size: u32) -> [u8; HEAD] {
    let mut head = [0; HEAD];
    head.copy_from_slice(&wav::write(RATE, &[])[..HEAD]);
    head[4..8].copy_from_slice(&size.saturating_add(HEAD as u32 - 8).to_le_bytes());
    head[40..].copy_from_slice(&size.to_le_bytes());
    head
}

/// Writes into the head of a file how much sound it has.
fn close_original(file: &mut File, size: u32) -> io::Result<()> {
    file.rewind()?;
    file.write_all(&original_head(size))?;
    sync_all(file)
}

/// One that is being written. Dropped, it is taken away.
pub struct Original {
    folder: Folder,
    place: PathBuf,
    file: File,
    size: u32,
}

impl Original {
    pub fn new(day: &Path, name: &str) -> Result<Original> {
        let mut folder = Folder::new(&day.join(BEFORE), false)?;
        let (place, mut file) = (folder.place(name), folder.create(name)?);
        // until it is closed nobody knows how long it is
        file.write_all(&original_head(u32::MAX)).at(&place)?;
        Ok(Original { folder, place, file, size: 0 })
    }

    pub fn write(&mut self, samples: &[f32]) -> Result<()> {
        let bytes = packed(samples);
        self.size = self.size.saturating_add(bytes.len() as u32);
        self.file.write_all(&bytes).at(&self.place)
    }

    /// Closes it, and gives it its place.
    pub fn keep(mut self) -> Result<()> {
        close_original(&mut self.file, self.size).at(&self.place)?;
        self.folder.keep()
    }

    /// Leaves it as it is.
    pub fn leave(&mut self) {
        self.folder.leave();
    }
}

/// Closes what a crash left of one: its head says how much sound there is.
pub fn mend_original(part: &Path) -> Result<()> {
    let mut file = File::options().read(true).write(true).open(part).at(part)?;
    let size = file.metadata().at(part)?.len().saturating_sub(HEAD as u64) & !1;
    file.set_len(HEAD as u64 + size).at(part)?;
    close_original(&mut file, u32::try_from(size).unwrap_or(u32::MAX)).at(part)
}

#[cfg(test)]
mod tests {
    use super::*;
    use std::fs;

    /// Closed at its end or after a crash, it is the WAV file of its samples.
    #[test]
    fn it_is_a_plain_file() {
        let day = std::env::temp_dir().join(format!("original-{}", std::process::id()));
        let _ = fs::remove_dir_all(&day);
        let samples = [1.0, -2.0, 32_767.0];
        let (mut kept, mut torn) = (Original::new(&day, "a.wav").unwrap(), Original::new(&day, "b.wav").unwrap());
        for one in [&mut kept, &mut torn] {
            one.write(&samples[..1]).unwrap();
            one.write(&samples[1..]).unwrap();
        }
        kept.keep().unwrap();
        torn.leave();
        let part = day.join("before/b.wav.part");
        File::options().append(true).open(&part).unwrap().write_all(&[7]).unwrap();
        mend_original(&part).unwrap();
        for file in [day.join("before/a.wav"), part] {
            assert_eq!(fs::read(file).unwrap(), wav::write(RATE, &samples));
        }
        drop(Original::new(&day, "c.wav").unwrap());
        assert_eq!(fs::read_dir(day.join("before")).unwrap().count(), 2);
        fs::remove_dir_all(day).unwrap();
    }
}
