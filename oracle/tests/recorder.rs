//! The library's recorder beside plain Rust: however a bench's output is cut into calls, what the calls say, written in
//! a row, is the recording that plain Rust writes at once. A refused call changes nothing.

use oracle::plain_recording::{judge, Front, Recording};
use oracle::rng::Rng;

const FRAME: usize = 480;

/// The output of a bench for some samples, with the silence after them: for each frame 960 bytes, and whether it was
/// heard.
struct Output {
    bytes: Vec<u8>,
    heard: Vec<bool>,
}

impl Output {
    fn of(rng: &mut Rng, frames: usize) -> Output {
        Output { bytes: rng.bytes(960 * frames), heard: (0..frames).map(|_| rng.once_in(2)).collect() }
    }

    /// The records of some frames, of a side, numbered on from the first of them.
    fn records(&self, side: u8, from: usize, to: usize) -> Vec<u8> {
        let record = |frame: usize| {
            let number = (frame as u32).to_le_bytes();
            [&number[..], &[u8::from(self.heard[frame]), side, 0, 0]].concat()
        };
        (from..to).flat_map(record).collect()
    }
}

/// What a host has written so far of one recording.
#[derive(Default)]
struct Written {
    audio: Vec<u8>,
    records: Vec<u8>,
}

impl Written {
    fn file(&self, numbers: &[u64]) -> Vec<u8> {
        let (mut head, mut chunk, mut trailer) = ([0; 76], [0; 32], [0; 16]);
        assert_eq!(tuppence::recorder_finish(&mut head, &mut chunk, &mut trailer, numbers), 0);
        [&head[..], &self.audio, &chunk, &self.records, &trailer].concat()
    }
}

/// Hands frames to the recorder that were completed by so many samples, after calls that it must refuse.
fn hand_in(numbers: &mut [u64], to: &mut Written, out: &Output, side: u8, frames: [usize; 2], taken: usize) {
    let [from, until] = frames;
    let (cleaned, records) = (&out.bytes[960 * from..960 * until], out.records(side, from, until));
    let before = numbers.to_vec();
    let mut part = [7, 7];
    let other = out.records(1 - side, from, until);
    if from < until {
        assert_eq!(tuppence::recorder_more(numbers, &mut part, taken as u32, cleaned, &other), 68, "the other side's");
        let late = out.records(side, from, until - 1);
        assert_eq!(tuppence::recorder_more(numbers, &mut part, taken as u32, cleaned, &late), 5, "a record too few");
    }
    assert!(numbers == before && part == [7, 7], "a refusal changes nothing");
    assert_eq!(tuppence::recorder_more(numbers, &mut part, taken as u32, cleaned, &records), 0);
    let [start, length] = part.map(|place| place as usize);
    to.audio.extend(&cleaned[start..start + length]);
    to.records.extend(records);
}

/// A stream of so many samples in blocks of any size, and then as much silence as the recorder asks for.
#[test]
fn what_the_calls_say_is_the_recording() {
    let rng = &mut Rng::new(47);
    for turn in 0..300 {
        let (samples, side, began) = (1 + rng.below(6_000), (turn % 2) as u8, rng.bits() >> 20);
        let out = Output::of(rng, samples.div_ceil(FRAME) + 1);
        let (mut numbers, mut written) = ([7; 8], Written::default());
        assert_eq!(tuppence::recorder_begin(&mut numbers, side.into(), began, 0), 0);
        let (mut taken, mut given) = (0, 0);
        while taken < samples {
            let block = (1 + rng.below(4_096)).min(samples - taken);
            taken += block;
            hand_in(&mut numbers, &mut written, &out, side, [given, taken / FRAME], block);
            given = taken / FRAME;
        }
        let mut silence = [0];
        assert_eq!(tuppence::recorder_closing(&mut silence, &numbers), 0);
        let all = (taken + silence[0] as usize) / FRAME;
        assert_eq!((all, (taken + silence[0] as usize) % FRAME), (out.heard.len(), 0), "{samples} samples");
        hand_in(&mut numbers, &mut written, &out, side, [given, all], 0);
        let audio = out.bytes[960..960 + 2 * samples].to_vec();
        let plain = Recording { front: Front { side, began, first: 0 }, audio, heard: out.heard };
        let file = written.file(&numbers);
        assert!(file == plain.bytes(), "{samples} samples");
        assert_eq!(judge(&file).map(|told| told.front), Ok(plain.front));
    }
}

/// A recording that is cut after some frames goes on in the next: both in a row have the audio of one.
#[test]
fn a_cut_loses_nothing_and_repeats_nothing() {
    let rng = &mut Rng::new(50);
    for _ in 0..100 {
        let (samples, side) = (FRAME * (3 + rng.below(12)) + rng.below(FRAME), rng.below(2) as u8);
        let out = Output::of(rng, samples.div_ceil(FRAME) + 1);
        let cut = 2 + rng.below(samples / FRAME - 2);
        let (mut numbers, mut one, mut two) = ([0; 8], Written::default(), Written::default());
        assert_eq!(tuppence::recorder_begin(&mut numbers, side.into(), 9, 0), 0);
        hand_in(&mut numbers, &mut one, &out, side, [0, cut], FRAME * cut);
        let first = one.file(&numbers);
        assert_eq!(tuppence::recorder_next(&mut numbers, 10), 0);
        hand_in(&mut numbers, &mut two, &out, side, [cut, samples / FRAME], samples - FRAME * cut);
        hand_in(&mut numbers, &mut two, &out, side, [samples / FRAME, out.heard.len()], 0);
        let second = two.file(&numbers);
        let plain = |began, from: usize, to: usize, audio: &[u8]| {
            let front = Front { side, began, first: from as u32 };
            Recording { front, audio: audio.to_vec(), heard: out.heard[from..to].to_vec() }.bytes()
        };
        let audio = &out.bytes[960..960 + 2 * samples];
        let (before, after) = audio.split_at(960 * (cut - 1));
        assert!(first == plain(9, 0, cut, before));
        assert!(second == plain(10, cut, out.heard.len(), after));
    }
}
