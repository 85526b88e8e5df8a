//! In plain Rust: CRC-32 a bit at a time, the two seals of a recording, and the head of a WAV file, written and read.

/// Of what was handed in before, 0 of nothing, and of these bytes behind it.
pub fn checksum(before: u32, bytes: &[u8]) -> u32 {
    !bytes.iter().fold(!before, |register, byte| {
        (0..8).fold(register ^ u32::from(*byte), |c, _| if c & 1 == 1 { 0xEDB8_8320 ^ (c >> 1) } else { c >> 1 })
    })
}

/// The word of the front seal, and that of the end seal.
pub const WORDS: [&[u8; 4]; 2] = [b"TUPB", b"TUPP"];

/// The side, and the numbers of 64 and of 32 bits: when it began and its first frame, or how many bytes of audio and
/// their checksum.
#[derive(Clone, Copy, Debug, PartialEq)]
pub struct Seal {
    pub side: u32,
    pub long: u64,
    pub short: u32,
}

impl Seal {
    pub fn bytes(&self, word: &[u8; 4]) -> Result<Vec<u8>, u32> {
        let name = [b"LEFT", b"RGHT"].get(self.side as usize).ok_or(53u32)?;
        let mut bytes = [&word[..], &name[..], &self.long.to_le_bytes(), &self.short.to_le_bytes()].concat();
        bytes.extend(checksum(0, &bytes).to_le_bytes());
        Ok(bytes)
    }

    /// The seal with this word, in front of some bytes.
    pub fn read(name: &[u8; 4], file: &[u8]) -> Result<Seal, u32> {
        let Some((bytes, own)) = file.first_chunk::<24>().and_then(|seal| seal.split_last_chunk::<4>()) else {
            return Err(51);
        };
        if &bytes[..4] != name {
            return Err(51);
        }
        if checksum(0, bytes) != u32::from_le_bytes(*own) {
            return Err(52);
        }
        let side = match &bytes[4..8] {
            b"LEFT" => 0,
            b"RGHT" => 1,
            _ => return Err(53),
        };
        Ok(Seal { side, long: u64::from_le_bytes(bytes[8..16].try_into().unwrap()), short: word(&bytes[16..]) })
    }
}

fn word(bytes: &[u8]) -> u32 {
    u32::from_le_bytes(bytes[..4].try_into().unwrap())
}

/// The head of one channel of 16 bits.
pub fn head(rate: u32, size: u32, behind: u32) -> Vec<u8> {
    let riff = 36 + u64::from(size) + u64::from(size % 2) + u64::from(behind);
    let mut bytes = b"RIFF".to_vec();
    bytes.extend(u32::try_from(riff).unwrap_or(u32::MAX).to_le_bytes());
    bytes.extend(b"WAVEfmt \x10\0\0\0\x01\0\x01\0");
    bytes.extend(rate.to_le_bytes());
    bytes.extend(rate.wrapping_mul(2).to_le_bytes());
    bytes.extend(b"\x02\0\x10\0data");
    bytes.extend(size.to_le_bytes());
    bytes
}

/// Bits of a sample, channels and rate.
pub type Format = [u64; 3];

fn format(body: &[u8], size: u32) -> Result<Format, u32> {
    let at = |place: usize| u16::from_le_bytes([body[place], body[place + 1]]);
    if body.len() < size.min(26) as usize {
        return Err(42);
    }
    if size < 16 {
        return Err(44);
    }
    let tag = match at(0) {
        0xFFFE if size < 26 => 0,
        0xFFFE => at(24),
        tag => tag,
    };
    let (bits, bytes) = match (tag, at(14)) {
        (1, 16) => (16, 2),
        (1, 24) => (24, 3),
        (1, 32) => (33, 4),
        (3, 32) => (32, 4),
        _ => return Err(45),
    };
    let channels = at(2);
    if !(1..=64).contains(&channels) {
        return Err(46);
    }
    if at(12) != bytes * channels {
        return Err(47);
    }
    Ok([bits, channels.into(), word(&body[4..]).into()])
}

/// Where the audio of a whole file starts, its format, and how many bytes it says it has.
pub fn read(file: &[u8]) -> Result<(u64, Format, u32), u32> {
    match file.first_chunk::<12>() {
        Some([b'R', b'I', b'F', b'F', _, _, _, _, b'W', b'A', b'V', b'E']) => (),
        _ => return Err(41),
    }
    let (mut at, mut seen) = (12, None);
    loop {
        let chunk = file.get(at..).filter(|rest| rest.len() >= 8).ok_or(42u32)?;
        let size = word(&chunk[4..]);
        match &chunk[..4] {
            b"data" => return Ok((at as u64 + 8, seen.ok_or(43u32)?, size)),
            b"fmt " if seen.is_none() => seen = Some(format(&chunk[8..], size)?),
            _ => (),
        }
        at += 8 + size as usize + size as usize % 2;
    }
}

/// Place, bits of a sample, channels, rate and size.
pub type Numbers = [u64; 5];

/// One step of a reading that may stand anywhere, lent the file from its place on: 0 or 40 with the numbers behind it.
pub fn step(numbers: Numbers, bytes: &[u8]) -> Result<(u32, Numbers), u32> {
    let [place, bits, channels, rate, held] = numbers;
    if place == 0 {
        return match bytes {
            [b'R', b'I', b'F', b'F', _, _, _, _, b'W', b'A', b'V', b'E', ..] => Ok((40, [12, 0, 0, 0, 0])),
            _ => Err(41),
        };
    }
    if bytes.len() < 8 || place > i64::MAX as u64 {
        return Err(42);
    }
    let size = word(&bytes[4..]);
    let next = place + 8 + u64::from(size) + u64::from(size % 2);
    match (&bytes[..4], bits) {
        (b"data", 0) => Err(43),
        (b"data", _) => Ok((0, [place + 8, bits, channels, rate, size.into()])),
        (b"fmt ", 0) => format(&bytes[8..], size).map(|[bits, channels, rate]| (40, [next, bits, channels, rate, 0])),
        _ => Ok((40, [next, bits, channels, rate, held])),
    }
}
