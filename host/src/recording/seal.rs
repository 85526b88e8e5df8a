//! The end seal of a recording, which is written after its audio: its side, and of which audio it is. The library reads
//! it. (A recording of an earlier version of the box has this seal alone.)

use crate::cleaning::recorder::Side;
use crate::telling::refusal::{done, Refusal};

#[derive(Clone, Copy, Debug, PartialEq)]
pub struct Seal {
    pub side: Side,
    /// How many bytes of audio there are, and their checksum.
    pub bytes: u64,
    pub checksum: u32,
}

impl Seal {
    /// The seal in front of some bytes.
    pub fn read(bytes: &[u8]) -> Result<Seal, Refusal> {
        let mut numbers = [0; 3];
        done(tuppence::seal_read(&mut numbers, bytes))?;
        Ok(Seal { side: Side::BOTH[numbers[0] as usize], bytes: numbers[1], checksum: numbers[2] as u32 })
    }
}

#[cfg(test)]
mod tests {
    use super::*;
    use crate::recording::front::{Front, SEAL};

    #[test]
    fn no_byte_of_a_seal_may_change() {
        for side in Side::BOTH {
            let chunk = Front { side, began: 5, first: 9 }.chunk(4_800, 0xCBF4_3926).unwrap();
            let seal = &chunk[chunk.len() - SEAL..];
            assert_eq!(Seal::read(seal), Ok(Seal { side, bytes: 4_800, checksum: 0xCBF4_3926 }));
            for at in 0..SEAL {
                let mut seal = seal.to_vec();
                seal[at] ^= 1;
                assert_eq!(Seal::read(&seal), Err(Refusal(if at < 4 { 51 } else { 52 })), "byte {at}");
            }
        }
    }
}
