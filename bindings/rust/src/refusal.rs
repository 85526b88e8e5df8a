//! Why a call was refused.

use std::fmt;

/// Why a call was refused. A refused call changes nothing that it was lent.
#[derive(Clone, Copy, Debug, PartialEq, Eq)]
pub enum Refusal {
    /// 1: there is no such bench.
    NoSuchBench,
    /// 2: the store or the record has a wrong length, or the record is not one that the library returned.
    WrongStoreOrRecord,
    /// 3: the bench is closed.
    Closed,
    /// 4: another call is due.
    NotDue,
    /// 5: a buffer has a wrong length.
    WrongLength,
    /// 6: the lag is above 768.
    LagTooLong,
    /// 7: the model does not read.
    Model {
        /// The model's own refusal, 11 to 22.
        number: u8,
        /// The layer in which it was found, 0 to 6.
        layer: u8,
    },
    /// 8: the model's GRU layers have other sizes than the model that the bench was opened with.
    OtherModel,
    /// 9: a sample is not a number from −32,768 to 32,767.
    BadSample,
    /// Any other number: docs/REFUSALS.md has them all.
    Other(u32),
}

impl Refusal {
    /// What the number means that a call returned: 0 is done.
    pub fn check(number: u32) -> Result<(), Refusal> {
        Err(match number {
            0 => return Ok(()),
            1 => Refusal::NoSuchBench,
            2 => Refusal::WrongStoreOrRecord,
            3 => Refusal::Closed,
            4 => Refusal::NotDue,
            5 => Refusal::WrongLength,
            6 => Refusal::LagTooLong,
            8 => Refusal::OtherModel,
            9 => Refusal::BadSample,
            number if number % 256 == 7 && number < 1 << 24 => {
                Refusal::Model { number: (number >> 8) as u8, layer: (number >> 16) as u8 }
            }
            number => Refusal::Other(number),
        })
    }

    /// The number that the call returned.
    pub fn number(self) -> u32 {
        match self {
            Refusal::NoSuchBench => 1,
            Refusal::WrongStoreOrRecord => 2,
            Refusal::Closed => 3,
            Refusal::NotDue => 4,
            Refusal::WrongLength => 5,
            Refusal::LagTooLong => 6,
            Refusal::Model { number, layer } => 7 + (u32::from(number) << 8) + (u32::from(layer) << 16),
            Refusal::OtherModel => 8,
            Refusal::BadSample => 9,
            Refusal::Other(number) => number,
        }
    }
}

impl fmt::Display for Refusal {
    fn fmt(&self, f: &mut fmt::Formatter) -> fmt::Result {
        match self {
            Refusal::NoSuchBench => write!(f, "there is no such bench (refusal 1)"),
            Refusal::WrongStoreOrRecord => write!(f, "store or record is not this bench's (refusal 2)"),
            Refusal::Closed => write!(f, "the bench is closed (refusal 3)"),
            Refusal::NotDue => write!(f, "another call is due (refusal 4)"),
            Refusal::WrongLength => write!(f, "a buffer has a wrong length (refusal 5)"),
            Refusal::LagTooLong => write!(f, "the lag is above 768 (refusal 6)"),
            Refusal::Model { number, layer } => {
                write!(f, "the model does not read (refusal 7: number {number}, layer {layer})")
            }
            Refusal::OtherModel => write!(f, "the model has other sizes than at the opening (refusal 8)"),
            Refusal::BadSample => write!(f, "a sample is not a number from -32768 to 32767 (refusal 9)"),
            Refusal::Other(number) => write!(f, "refusal {number}"),
        }
    }
}

impl std::error::Error for Refusal {}

#[cfg(test)]
mod tests {
    use super::*;

    #[test]
    fn every_number_comes_back() {
        for number in (1..1_000).chain([7 + 256 * 22 + 65_536 * 6, 7 + (1 << 24), u32::MAX]) {
            assert_eq!(Refusal::check(number).unwrap_err().number(), number);
        }
        assert_eq!(Refusal::check(0), Ok(()));
    }
}
