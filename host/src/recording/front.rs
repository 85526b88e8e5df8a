//! What the library writes around the audio of a recording: the head before it, with the front seal, and the chunk
//! after it, with the end seal. The box writes no tag and computes no length of its own.

use crate::cleaning::recorder::Side;
use crate::telling::refusal::{done, Refusal};

/// The bytes before the audio.
pub const HEAD: usize = 76;
/// The bytes of a seal: the front seal within the head, and the end seal within the chunk.
pub const SEAL: usize = 24;
/// Where the front seal is in the head.
const AT: usize = 44;
/// The bytes between the audio and the records.
pub const CHUNK: usize = 32;
/// The size that a head has while its recording is being made.
pub const OPEN: u32 = u32::MAX;
/// The most bytes of audio that a recording can have.
pub const MOST: u32 = 4_259_471_040;

/// What the front of a recording says.
#[derive(Clone, Copy, Debug, PartialEq)]
pub struct Front {
    pub side: Side,
    /// When it began, in seconds since 1970; 0 if nobody knows.
    pub began: u64,
    /// The number of its first frame.
    pub first: u32,
}

impl Front {
    /// The bytes before so many bytes of audio.
    pub fn head(&self, size: u32) -> Result<[u8; HEAD], Refusal> {
        let mut head = [0; HEAD];
        let refused = tuppence::recording_head(&mut head, self.side as u32, self.began, self.first, size);
        done(refused).map(|()| head)
    }

    /// The bytes before audio that is still being made.
    pub fn open_head(&self) -> [u8; HEAD] {
        self.head(OPEN).expect("a head of 76 bytes, of one of two sides")
    }

    /// The front seal, as it is in the head.
    pub fn seal(&self) -> [u8; SEAL] {
        seal_in(&self.open_head())
    }

    /// The bytes between so many bytes of audio, which have this checksum, and the records.
    pub fn chunk(&self, size: u32, checksum: u32) -> Result<[u8; CHUNK], Refusal> {
        let mut chunk = [0; CHUNK];
        let refused = tuppence::recording_chunk(&mut chunk, self.side as u32, self.first, size, checksum);
        done(refused).map(|()| chunk)
    }

    /// What a front seal says, if these bytes are one.
    pub fn read(seal: &[u8]) -> Result<Front, Refusal> {
        let mut numbers = [0; 3];
        done(tuppence::front_read(&mut numbers, seal))?;
        Ok(Front { side: Side::BOTH[numbers[0] as usize], began: numbers[1], first: numbers[2] as u32 })
    }
}

/// The bytes of a head in which the front seal is.
pub fn seal_in(head: &[u8; HEAD]) -> [u8; SEAL] {
    let mut seal = [0; SEAL];
    seal.copy_from_slice(&head[AT..AT + SEAL]);
    seal
}

/// How many bytes of audio a head announces.
pub fn size_in(head: &[u8; HEAD]) -> u32 {
    u32::from_le_bytes([head[72], head[73], head[74], head[75]])
}

/// How many records follow a chunk, by the length that the library gave it: a seal, the records and 16 bytes.
pub fn records_after(chunk: &[u8; CHUNK]) -> u64 {
    let length = u32::from_le_bytes([chunk[4], chunk[5], chunk[6], chunk[7]]);
    (u64::from(length) - 40) / 8
}

#[cfg(test)]
mod tests {
    use super::*;

    /// What is written is read back, and no byte of a front seal may change.
    #[test]
    fn a_front_is_read_back() {
        for side in Side::BOTH {
            let front = Front { side, began: 0x1_2345_6789, first: 41_210 };
            let (head, seal) = (front.head(4_800).unwrap(), front.seal());
            assert_eq!((seal_in(&head), size_in(&head)), (seal, 4_800));
            assert_eq!((Front::read(&seal), size_in(&front.open_head())), (Ok(front), OPEN));
            for at in 0..SEAL {
                let mut seal = seal;
                seal[at] ^= 1;
                assert_eq!(Front::read(&seal), Err(Refusal(if at < 4 { 51 } else { 52 })), "byte {at}");
            }
            let word = if side == Side::Left { b"LEFT" } else { b"RGHT" };
            assert_eq!(&seal[4..8], word);
            let chunk = front.chunk(4_800, 7).unwrap();
            assert_eq!((&chunk[12..16], records_after(&chunk)), (&word[..], 5));
            assert_eq!(records_after(&Front { first: 0, ..front }.chunk(4_802, 7).unwrap()), 7);
        }
    }

    /// Whole samples, at least one, and no more than the sizes of a WAV file can say.
    #[test]
    fn sizes_that_a_recording_has() {
        let front = Front { side: Side::Right, began: 0, first: 0 };
        assert!([2, MOST].iter().all(|size| front.head(*size).is_ok() && front.chunk(*size, 0).is_ok()));
        assert!([0, 3, MOST + 2].iter().all(|size| front.head(*size) == Err(Refusal(61))));
    }
}
