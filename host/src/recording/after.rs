//! The records of a recording, one for each of its frames, and what is written after the audio.

use crate::error::Result;
use crate::recording::front::{records_after, Front};
use crate::telling::refusal::{done, Refusal};
use std::io::{self, Read, Write};

/// The bytes of a record, and of a trailer.
pub const RECORD: usize = 8;
pub const TRAILER: usize = 16;
/// Records that are read at a time.
const PART: u64 = 8_192;
/// The mark of a frame that was heard in its entry.
pub const HEARD: u64 = 1 << 32;

/// How many records there are so far, and the sum of their bytes, as the library carries them on.
type Tally = [u64; 2];

/// These frames' records, as the library writes them.
fn records_by_library(tally: &mut Tally, front: Front, entries: &[u64]) -> Result<Vec<u8>, Refusal> {
    let mut records = vec![0; RECORD * entries.len()];
    done(tuppence::sheet_records(tally, &mut records, front.side as u32, entries)).map(|()| records)
}

/// The records of frames that have these entries.
pub fn records_of(front: Front, entries: &[u64]) -> Result<Vec<u8>, Refusal> {
    records_by_library(&mut [0; 2], front, entries)
}

/// What was found where the records of a recording should be.
#[derive(Clone, Copy, Debug, Default, PartialEq)]
pub struct Rebuilt {
    /// How many are missing or damaged. They are written as heard.
    pub lost: u64,
    /// How many are the other side's record of the same frame.
    pub other: u64,
}

impl Rebuilt {
    /// Whether records of the other side are among them. One alone may be what a power cut left of a record, filled up
    /// with zeros.
    pub fn is_mixed(&self) -> bool {
        self.other > 1
    }
}

/// The records of so many frames, in parts.
struct Rebuilding {
    front: Front,
    /// The number of the next frame.
    next: u32,
    tally: Tally,
    found: Rebuilt,
}

impl Rebuilding {
    /// The records of the next frames. Each that is here, as the library writes it of this frame, is kept.
    fn part(&mut self, here: &[u8], frames: u64) -> Result<Vec<u8>, Refusal> {
        let records: Vec<Option<&[u8]>> =
            (0..frames as usize).map(|at| here.get(RECORD * at..RECORD * (at + 1))).collect();
        let number = |at: usize| u64::from(self.next.wrapping_add(at as u32));
        let was_heard = |record: &Option<&[u8]>| record.is_some_and(|record| record[4] == 1);
        let entry = |(at, record): (usize, &Option<&[u8]>)| number(at) | if was_heard(record) { HEARD } else { 0 };
        let mut entries: Vec<u64> = records.iter().enumerate().map(entry).collect();
        let ours = records_of(self.front, &entries)?;
        let theirs = records_of(Front { side: self.front.side.other(), ..self.front }, &entries)?;
        for (at, record) in records.into_iter().enumerate() {
            let place = RECORD * at..RECORD * (at + 1);
            if record != Some(&ours[place.clone()]) {
                self.found.lost += 1;
                self.found.other += u64::from(record == Some(&theirs[place]));
                entries[at] |= HEARD;
            }
        }
        self.next = self.next.wrapping_add(frames as u32);
        records_by_library(&mut self.tally, self.front, &entries)
    }
}

/// The records of so many frames, and then their trailer, which comes back and is not written.
fn rebuild(
    to: &mut impl Write,
    front: Front,
    mut frames: u64,
    from: &mut impl Read,
    goes_on: impl Fn(Rebuilt) -> bool,
) -> Result<(Rebuilt, [u8; TRAILER])> {
    let mut building = Rebuilding { front, next: front.first, tally: [0; 2], found: Rebuilt::default() };
    while frames > 0 && goes_on(building.found) {
        let (mut here, part) = (Vec::new(), PART.min(frames));
        from.take(RECORD as u64 * part).read_to_end(&mut here)?;
        to.write_all(&building.part(&here, part)?)?;
        frames -= part;
    }
    let [count, sum] = building.tally;
    let mut trailer = [0; TRAILER];
    done(tuppence::sheet_trailer(&mut trailer, front.side as u32, count, sum))?;
    Ok((building.found, trailer))
}

/// Writes what follows the audio of a recording, which has this size and checksum: the chunk with its end seal, a
/// record for each frame, and the trailer. The records are taken from here. What was found there comes back.
pub fn write_after(
    to: &mut impl Write,
    front: Front,
    size: u32,
    checksum: u32,
    from: &mut impl Read,
) -> Result<Rebuilt> {
    let chunk = front.chunk(size, checksum)?;
    to.write_all(&chunk)?;
    let (found, trailer) = rebuild(to, front, records_after(&chunk), from, |_| true)?;
    to.write_all(&trailer)?;
    Ok(found)
}

/// The same, without writing anything.
pub fn look_after(front: Front, size: u32, from: &mut impl Read) -> Result<Rebuilt> {
    write_after(&mut io::sink(), front, size, 0, from)
}

/// Whether so many records of a side, numbered from a first one, and their trailer are here.
pub fn is_sheet(front: Front, frames: u64, from: &mut impl Read) -> Result<bool> {
    let (found, trailer) = rebuild(&mut io::sink(), front, frames, from, |found| found.lost == 0)?;
    let mut here = Vec::new();
    from.take(TRAILER as u64).read_to_end(&mut here)?;
    Ok(found.lost == 0 && here == trailer)
}

#[cfg(test)]
mod tests {
    use super::*;
    use crate::cleaning::recorder::Side;
    use crate::recording::front::CHUNK;

    /// So many frames of a recording that begins with this one, and what is written after its audio.
    fn after(front: Front, frames: u64, from: &[u8]) -> (Vec<u8>, Rebuilt) {
        let size = 960 * (frames - u64::from(front.first == 0)) as u32;
        let mut out = Vec::new();
        let found = write_after(&mut out, front, size, 7, &mut &from[..]).unwrap();
        assert_eq!(look_after(front, size, &mut &from[..]), Ok(found));
        assert_eq!(out[..CHUNK], front.chunk(size, 7).unwrap());
        (out.split_off(CHUNK), found)
    }

    /// The records in parts, with their trailer, are what the library writes at once, and each that is missing or
    /// damaged is written as heard.
    #[test]
    fn records_are_kept_or_written_as_heard() {
        const FRAMES: u64 = 2 * PART + 100;
        for (side, first) in [(Side::Left, 0), (Side::Right, u32::MAX - 9)] {
            let front = Front { side, began: 3, first };
            let entry = |n: u64| u64::from(first.wrapping_add(n as u32)) | if n.is_multiple_of(3) { HEARD } else { 0 };
            let entries: Vec<u64> = (0..FRAMES).map(entry).collect();
            let sheet = |entries: &[u64]| {
                let mut sheet = vec![0; RECORD * entries.len() + TRAILER];
                assert_eq!(tuppence::sheet_write(&mut sheet, side as u32, entries), 0);
                sheet
            };
            let whole = sheet(&entries);
            let records = &whole[..whole.len() - TRAILER];
            let found = |lost: u64, other: u64| Rebuilt { lost, other };
            assert_eq!(after(front, FRAMES, records), (whole.clone(), found(0, 0)));
            assert_eq!(after(front, FRAMES, &whole), (whole.clone(), found(0, 0)));
            for lost in [0, 1, PART - 1, PART, 2 * PART, FRAMES - 1] {
                let mut wanted = entries.clone();
                wanted[lost as usize] |= HEARD;
                for byte in 0..RECORD {
                    let mut torn = records.to_vec();
                    let place = RECORD * lost as usize + byte;
                    torn[place] ^= if byte == 4 { 2 } else { 1 };
                    assert!(
                        after(front, FRAMES, &torn) == (sheet(&wanted), found(1, u64::from(byte == 5))),
                        "{lost}, {byte}"
                    );
                }
                wanted[lost as usize..].iter_mut().for_each(|entry| *entry |= HEARD);
                let cut = &records[..RECORD * lost as usize + 5];
                assert!(after(front, FRAMES, cut) == (sheet(&wanted), found(FRAMES - lost, 0)), "{lost}");
            }
        }
    }
}
