//! The library's judge: whether the bytes of a file are exactly those that the box writes for a side. They are read
//! once, in parts, and no more of them is in memory than a part.

use crate::cleaning::recorder::Side;
use crate::recording::front::{Front, HEAD};
use crate::telling::refusal::{done, Refusal};
use std::io::{self, ErrorKind, Read};

/// The bytes that are read at a time.
const PART: usize = 65_536;
/// No recording has more bytes: its head says its length in 32 bits. What is longer is read no further.
const MOST: u64 = u32::MAX as u64 + 8;

/// What a recording is, if the judge accepts it.
#[derive(Clone, Copy, Debug, PartialEq)]
pub struct Told {
    pub front: Front,
    pub frames: u64,
    pub heard: u64,
}

/// A judge, as a host holds it.
struct Judge {
    numbers: [u64; 11],
    held: [u8; HEAD],
}

impl Judge {
    fn new() -> Judge {
        let mut judge = Judge { numbers: [0; 11], held: [0; HEAD] };
        assert_eq!(tuppence::judge_begin(&mut judge.numbers, &mut judge.held), 0, "eleven numbers and 76 bytes");
        judge
    }

    /// The next bytes of the file.
    fn more(&mut self, bytes: &[u8]) {
        let refused = tuppence::judge_more(&mut self.numbers, &mut self.held, bytes);
        assert_eq!(refused, 0, "eleven numbers and 76 bytes");
    }

    /// What the file is, if it ends here.
    fn verdict(&self) -> Result<Told, Refusal> {
        let mut out = [0; 5];
        done(tuppence::judge_verdict(&mut out, &self.numbers, &self.held))?;
        let [side, began, first, frames, heard] = out;
        let front = Front { side: Side::BOTH[side as usize], began, first: first as u32 };
        Ok(Told { front, frames, heard })
    }
}

/// Fills these bytes as far as the file goes. How many there are.
fn read_fully(from: &mut impl Read, bytes: &mut [u8]) -> io::Result<usize> {
    let mut filled = 0;
    while filled < bytes.len() {
        match from.read(&mut bytes[filled..]) {
            Ok(0) => break,
            Ok(more) => filled += more,
            Err(why) if why.kind() == ErrorKind::Interrupted => {}
            Err(why) => return Err(why),
        }
    }
    Ok(filled)
}

/// What a file is, from here to its end, or the number of the first part that is not as the box writes it. If that is
/// its head, the rest is not read.
pub fn judged(from: &mut impl Read) -> io::Result<Result<Told, Refusal>> {
    let (mut judge, mut from) = (Judge::new(), from.take(MOST + 1));
    let mut bytes = vec![0; PART];
    let head = read_fully(&mut from, &mut bytes[..HEAD])?;
    judge.more(&bytes[..head]);
    if judge.verdict() == Err(Refusal(61)) {
        return Ok(Err(Refusal(61)));
    }
    loop {
        let more = read_fully(&mut from, &mut bytes)?;
        judge.more(&bytes[..more]);
        if more < PART {
            return Ok(judge.verdict());
        }
    }
}
