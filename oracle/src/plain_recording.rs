//! In plain Rust: a recording written as one piece, and a file judged as one piece.

use crate::plain_wav::checksum;

/// The most bytes of audio that a recording has.
pub const MOST: u32 = 4_259_471_040;

/// The size in the head of a recording that is being made.
pub const OPEN: u32 = u32::MAX;

/// What the head says besides the length of the audio.
#[derive(Clone, Copy, Debug, PartialEq)]
pub struct Front {
    pub side: u8,
    pub began: u64,
    pub first: u32,
}

/// A recording: its audio, and for each frame whether it was heard.
#[derive(Clone, Debug)]
pub struct Recording {
    pub front: Front,
    pub audio: Vec<u8>,
    pub heard: Vec<bool>,
}

/// How many frames so many bytes of audio take.
pub fn frames(first: u32, size: u32) -> u64 {
    u64::from(size).div_ceil(960) + u64::from(first == 0)
}

/// Whether a recording can have so many bytes of audio.
pub fn is_size(size: u32) -> bool {
    size > 0 && size.is_multiple_of(2) && size <= MOST
}

fn letters(side: u8) -> &'static [u8; 4] {
    [b"LEFT", b"RGHT"][usize::from(side)]
}

fn seal(word: &[u8; 4], side: u8, long: u64, short: u32) -> Vec<u8> {
    let mut bytes = [&word[..], letters(side), &long.to_le_bytes(), &short.to_le_bytes()].concat();
    bytes.extend(checksum(0, &bytes).to_le_bytes());
    bytes
}

/// The 76 bytes before so many bytes of audio.
pub fn head(front: Front, size: u32) -> Vec<u8> {
    let after = 12 - 8 + 24 + 32 + 8 + u64::from(size) + 8 + 24 + 8 * frames(front.first, size) + 16;
    let mut bytes = b"RIFF".to_vec();
    bytes.extend(u32::try_from(after).unwrap_or(u32::MAX).to_le_bytes());
    bytes.extend(b"WAVEfmt \x10\0\0\0\x01\0\x01\0\x80\xBB\0\0\0\x77\x01\0\x02\0\x10\0side\x18\0\0\0");
    bytes.extend(seal(b"TUPB", front.side, front.began, front.first));
    bytes.extend(b"data");
    bytes.extend(size.to_le_bytes());
    bytes
}

/// The 32 bytes between the audio and the records.
pub fn chunk(side: u8, first: u32, size: u32, sum: u32) -> Vec<u8> {
    let mut bytes = b"side".to_vec();
    bytes.extend((24 + 8 * frames(first, size) as u32 + 16).to_le_bytes());
    bytes.extend(seal(b"TUPP", side, size.into(), sum));
    bytes
}

impl Recording {
    pub fn bytes(&self) -> Vec<u8> {
        let Front { side, first, .. } = self.front;
        let size = self.audio.len() as u32;
        let mut records = Vec::new();
        for (number, heard) in self.heard.iter().enumerate() {
            records.extend(first.wrapping_add(number as u32).to_le_bytes());
            records.extend([u8::from(*heard), side, 0, 0]);
        }
        let sum: u32 = records.iter().map(|byte| u32::from(*byte)).sum();
        let count = self.heard.len() as u32;
        let mut bytes = head(self.front, size);
        bytes.extend(&self.audio);
        bytes.extend(chunk(side, first, size, checksum(0, &self.audio)));
        bytes.extend(records);
        bytes.extend([8 * count, count, u32::from(side), sum].map(u32::to_le_bytes).concat());
        bytes
    }
}

/// What is reported of a file that is a recording.
#[derive(Clone, Copy, Debug, PartialEq)]
pub struct Told {
    pub front: Front,
    pub frames: u64,
    pub heard: u64,
}

/// Takes what is wanted from the front of some bytes.
fn take<'a>(file: &mut &'a [u8], count: usize) -> Option<&'a [u8]> {
    let (front, rest) = file.split_at_checked(count)?;
    *file = rest;
    Some(front)
}

fn word(file: &mut &[u8]) -> Option<u32> {
    take(file, 4).map(|bytes| u32::from_le_bytes(bytes.try_into().unwrap()))
}

fn long(file: &mut &[u8]) -> Option<u64> {
    take(file, 8).map(|bytes| u64::from_le_bytes(bytes.try_into().unwrap()))
}

/// A seal with this word: the side, and its two numbers.
fn unsealed(file: &mut &[u8], name: &[u8; 4]) -> Option<(u8, u64, u32)> {
    let whole = *file;
    let found = take(file, 4)?;
    let side = match take(file, 4)? {
        b"LEFT" => 0,
        b"RGHT" => 1,
        _ => return None,
    };
    let (number, small, own) = (long(file)?, word(file)?, word(file)?);
    (found == name && own == checksum(0, &whole[..20])).then_some((side, number, small))
}

/// The front and the audio's size.
fn headed(file: &mut &[u8]) -> Option<(Front, u32)> {
    const FORMAT: &[u8] = b"WAVEfmt \x10\0\0\0\x01\0\x01\0\x80\xBB\0\0\0\x77\x01\0\x02\0\x10\0side\x18\0\0\0";
    let name = take(file, 4)?;
    let riff = word(file)?;
    let format = take(file, FORMAT.len())?;
    let (side, began, first) = unsealed(file, b"TUPB")?;
    let data = take(file, 4)?;
    let size = word(file)?;
    let whole = 116 + u64::from(size) + 8 * frames(first, size);
    let is_ours = name == b"RIFF" && format == FORMAT && data == b"data" && u64::from(riff) == whole && is_size(size);
    is_ours.then_some((Front { side, began, first }, size))
}

/// Whether what is between the audio and the records is there.
fn closed(file: &mut &[u8], front: Front, audio: &[u8]) -> Option<()> {
    let size = audio.len() as u32;
    let (name, length) = (take(file, 4)?, word(file)?);
    let (side, long, sum) = unsealed(file, b"TUPP")?;
    let is_ours = name == b"side" && u64::from(length) == 40 + 8 * frames(front.first, size);
    (is_ours && side == front.side && long == u64::from(size) && sum == checksum(0, audio)).then_some(())
}

/// A record's frame was heard, or not.
fn recorded(file: &mut &[u8], front: Front, number: u32) -> Option<bool> {
    let (found, rest) = (word(file)?, take(file, 4)?);
    let heard = match rest[0] {
        0 => false,
        1 => true,
        _ => return None,
    };
    (found == number && rest[1..] == [front.side, 0, 0]).then_some(heard)
}

fn ended(file: &mut &[u8], front: Front, count: u64, sum: u32) -> Option<()> {
    let found = [word(file)?, word(file)?, word(file)?, word(file)?];
    (found == [8 * count as u32, count as u32, front.side.into(), sum]).then_some(())
}

/// What a file is, or the number of the first part that is not as it should be.
pub fn judge(mut file: &[u8]) -> Result<Told, u32> {
    let file = &mut file;
    let (front, size) = headed(file).ok_or(61u32)?;
    let audio = take(file, size as usize).ok_or(62u32)?;
    closed(file, front, audio).ok_or(63u32)?;
    let (count, records) = (frames(front.first, size), *file);
    let mut heard = 0;
    for number in 0..count as u32 {
        heard += u64::from(recorded(file, front, front.first.wrapping_add(number)).ok_or(64u32)?);
    }
    let sum = records[..8 * count as usize].iter().map(|byte| u32::from(*byte)).sum();
    ended(file, front, count, sum).ok_or(65u32)?;
    if file.is_empty() {
        Ok(Told { front, frames: count, heard })
    } else {
        Err(66)
    }
}
