//! Recordings made by hand, byte by byte and by a checksum of their own: what the box is to write and to read.
#![allow(dead_code)]

use tuppencehop::cleaning::demo::Rng;
use tuppencehop::cleaning::run::frames_of;

pub const HEARD: u64 = 1 << 32;
/// The bytes before the audio of a plain file, or of a recording of an earlier version; and of a recording.
pub const HEADER: usize = 44;
pub const HEAD: usize = 76;

/// CRC-32, a bit at a time.
pub fn crc32(bytes: &[u8]) -> u32 {
    let step = |sum: u32| if sum & 1 == 1 { sum >> 1 ^ 0xEDB8_8320 } else { sum >> 1 };
    !bytes.iter().fold(u32::MAX, |sum, byte| (0..8).fold(sum ^ u32::from(*byte), |sum, _| step(sum)))
}

/// So many samples of noise, as bytes.
pub fn noise(samples: usize, seed: u64) -> Vec<u8> {
    let mut rng = Rng(0x9e37_79b9 + seed);
    (0..samples).flat_map(|_| (rng.draw() as i16 / 8).to_le_bytes()).collect()
}

/// The entries of so many frames that number up from 0, each third of them heard.
pub fn entries(frames: u64) -> Vec<u64> {
    (0..frames).map(|n| n + if n % 3 == 0 { HEARD } else { 0 }).collect()
}

pub fn sheet(side: u32, entries: &[u64]) -> Vec<u8> {
    let record = |entry: &u64| [&(*entry as u32).to_le_bytes()[..], &[(entry >> 32) as u8, side as u8, 0, 0]].concat();
    let records: Vec<u8> = entries.iter().flat_map(record).collect();
    let (n, sum) = (entries.len() as u32, records.iter().map(|byte| u32::from(*byte)).sum());
    [records, [8 * n, n, side, sum].map(u32::to_le_bytes).concat()].concat()
}

fn sealed_as(word: &[u8; 4], side: u32, long: u64, short: u32) -> Vec<u8> {
    let name = if side == 0 { b"LEFT" } else { b"RGHT" };
    let mut seal = [word, &name[..], &long.to_le_bytes(), &short.to_le_bytes()].concat();
    seal.extend(crc32(&seal).to_le_bytes());
    seal
}

/// The end seal of some audio.
pub fn seal(side: u32, audio: &[u8]) -> Vec<u8> {
    sealed_as(b"TUPP", side, audio.len() as u64, crc32(audio))
}

/// A front seal.
pub fn front(side: u32, began: u64, first: u32) -> Vec<u8> {
    sealed_as(b"TUPB", side, began, first)
}

/// A WAV file of one channel of 16 bits, with so much behind its audio.
pub fn riff(audio: &[u8], behind: &[u8]) -> Vec<u8> {
    let whole = 36 + audio.len() + behind.len();
    let number = |n: usize| (n as u32).to_le_bytes();
    let format = [1, 0, 1, 0, 0x80, 0xBB, 0, 0, 0, 0x77, 1, 0, 2, 0, 16, 0];
    let head = [b"RIFF", &number(whole)[..], b"WAVEfmt ", &number(16), &format, b"data", &number(audio.len())].concat();
    [&head, audio, behind].concat()
}

/// A chunk `side`.
pub fn chunk(seal: &[u8], sheet: &[u8]) -> Vec<u8> {
    let size = (seal.len() + sheet.len()) as u32;
    [b"side", &size.to_le_bytes()[..], seal, sheet].concat()
}

/// A recording with this front seal, and with so much behind its audio.
pub fn fronted(front: &[u8], audio: &[u8], behind: &[u8]) -> Vec<u8> {
    let plain = riff(audio, &[&[0; 32], behind].concat());
    [&plain[..36], b"side\x18\0\0\0", front, &plain[36..HEADER + audio.len()], behind].concat()
}

/// A recording that began then, with these frames.
pub fn recording(side: u32, began: u64, audio: &[u8], entries: &[u64]) -> Vec<u8> {
    let front = front(side, began, entries.first().map_or(0, |entry| *entry as u32));
    fronted(&front, audio, &chunk(&seal(side, audio), &sheet(side, entries)))
}

/// A recording with these frames, of which nobody knows when it began.
pub fn with_entries(side: u32, audio: &[u8], entries: &[u64]) -> Vec<u8> {
    recording(side, 0, audio, entries)
}

/// A recording whose frames number up from 0.
pub fn sealed(side: u32, audio: &[u8]) -> Vec<u8> {
    with_entries(side, audio, &entries(frames_of(audio.len() as u64 / 2)))
}

/// The same as an earlier version of the box wrote it: without a front seal.
pub fn earlier(side: u32, audio: &[u8]) -> Vec<u8> {
    riff(audio, &chunk(&seal(side, audio), &sheet(side, &entries(frames_of(audio.len() as u64 / 2)))))
}
