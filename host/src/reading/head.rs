//! The head of a WAV file, which the library reads a step at a time: of a stream no more is taken than a step wants,
//! and what stands in front of the audio is passed over.

use crate::reading::form::{self, Form};
use crate::reading::wav::Fault;
use std::io::{self, Read};

/// The bytes that are enough for a step.
const STEP: usize = 34;
/// What the library says where a reading goes on.
const ON: u32 = 40;

/// What a head says of the audio behind it: where that starts, its format (16, 24, or 32 for floats), channels and
/// rate, and how many bytes it says it has.
pub struct Head {
    pub place: u64,
    pub format: u32,
    pub channels: usize,
    pub rate: u32,
    pub size: u64,
    /// Whether it is RF64: WAV for more than 4 GiB, whose sizes have 64 bits and are in its first chunk.
    pub is_long: bool,
}

const BEYOND: Fault = Fault::NotWav(42, "a chunk before its audio goes beyond its end");

/// The library's refusal of a step, in words, by the bytes that it was lent.
fn fault(refused: u32, bytes: &[u8]) -> Fault {
    let at = |i: usize| bytes.get(i..i + 2).map_or(0, |b| u16::from_le_bytes([b[0], b[1]]));
    // a chunk's name and size, then tag, channels, rate (4), bytes a second (4), bytes of all channels, bits
    let (tag, channels, block, bits) = (at(8), at(10), at(20), at(22));
    match refused {
        41 => match form::known(bytes).filter(|form| *form != Form::Wav) {
            Some(form) => Fault::Form(form),
            None => Fault::NotWav(41, "it does not start as one"),
        },
        42 if bytes.len() < 8 => Fault::NotWav(42, "it has no `data` chunk"),
        42 => BEYOND,
        43 => Fault::NotWav(43, "it has no `fmt ` chunk before its audio"),
        44 => Fault::NotWav(44, "its `fmt ` chunk is too short"),
        _ if channels != 1 && channels != 2 => Fault::Channels(channels),
        // an extensible format has its own tag in front of the identifier's rest
        45 => Fault::Format { tag: if tag == 0xFFFE { at(32) } else { tag }, bits },
        _ => Fault::Block { bytes: block.into(), wanted: usize::from(bits / 8 * channels) },
    }
}

/// Drops so many bytes: of those that were read, and then of those that come. Whether there were so many.
fn pass(from: &mut impl Read, bytes: &mut Vec<u8>, count: u64) -> io::Result<bool> {
    let kept = usize::try_from(count).map_or(bytes.len(), |count| count.min(bytes.len()));
    bytes.drain(..kept);
    let rest = count - kept as u64;
    Ok(io::copy(&mut from.take(rest), &mut io::sink())? == rest)
}

/// RF64 begins with these bytes, or with BW64 in the place of RF64; then come the chunk's size, the size of the whole,
/// and the size of the audio.
const LONG: [&[u8]; 2] = [b"RF64", b"BW64"];
const SIZES: usize = 36;

/// The size of the audio as RF64's first chunk gives it. The library reads RIFF: this gives it the same head as RIFF.
/// The chunk is one that the library passes over.
fn long_size(from: &mut impl Read, bytes: &mut Vec<u8>) -> io::Result<Option<u64>> {
    if !LONG.iter().any(|word| bytes.starts_with(word)) || bytes.get(8..16) != Some(b"WAVEds64") {
        return Ok(None);
    }
    from.take((SIZES - bytes.len().min(SIZES)) as u64).read_to_end(bytes)?;
    bytes[..4].copy_from_slice(b"RIFF");
    let size = bytes.get(28..SIZES).and_then(|size| size.try_into().ok());
    Ok(Some(size.map_or(u64::MAX, u64::from_le_bytes)))
}

/// The size of the audio: what its own chunk says, and if that says that RF64 has it elsewhere, what that says there.
fn audio_size(own: u64, long: Option<u64>) -> u64 {
    let unknown = u64::from(u32::MAX);
    match long {
        Some(size) if own == unknown => Some(size).filter(|size| (1..u64::MAX >> 1).contains(size)).unwrap_or(unknown),
        _ => own,
    }
}

/// Reads on to the audio. The first bytes of it may have been read with the head: they come back.
pub fn read_head(from: &mut impl Read) -> Result<(Head, Vec<u8>), Fault> {
    let (mut numbers, mut at, mut bytes) = ([0; 5], 0, Vec::with_capacity(SIZES));
    from.take(STEP as u64).read_to_end(&mut bytes)?;
    let long = long_size(from, &mut bytes)?;
    loop {
        from.take(STEP.saturating_sub(bytes.len()) as u64).read_to_end(&mut bytes)?;
        let said = tuppence::wav_read(&mut numbers, &bytes);
        if said != 0 && said != ON {
            // what is no WAV file is recognised by its first bytes
            from.take((form::HEAD - STEP) as u64).read_to_end(&mut bytes)?;
            return Err(fault(said, &bytes));
        }
        let [place, format, channels, rate, size] = numbers;
        if !pass(from, &mut bytes, place - at)? {
            return Err(BEYOND);
        }
        if said == 0 {
            let (format, channels, rate) = (format as u32, channels as usize, rate as u32);
            let (size, is_long) = (audio_size(size, long), long.is_some());
            return Ok((Head { place, format, channels, rate, size, is_long }, bytes));
        }
        at = place;
    }
}
