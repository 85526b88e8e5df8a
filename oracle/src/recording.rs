//! Recordings: what is around the audio, and the judge, which is handed each file in pieces, against plain Rust
//! (`plain_recording`), which has the whole file at once.

use crate::plain_recording::{self as plain, Front, Recording, OPEN};
use crate::plain_wav::checksum;
use crate::rng::Rng;
use crate::tally::{Given, Tally};
use crate::{named, values, Options};

pub fn compare(options: &Options) -> Tally {
    let mut tally = Tally::new("recording");
    let rng = &mut Rng::new(options.seed);
    let t = &mut tally;
    every_byte(t, rng);
    for _ in 0..options.calls(20_000) {
        let file = any_file(rng);
        judging(t, rng, &file);
    }
    for _ in 0..options.calls(20_000) / 5 {
        heads(t, rng);
        chunks(t, rng);
    }
    tally
}

/// Every byte of a small recording changed to every other value, none of which is accepted, and the file cut at every
/// byte.
fn every_byte(t: &mut Tally, rng: &mut Rng) {
    for side in 0..2 {
        let front = Front { side, began: 1_800_000_000, first: u32::from(side) };
        let whole = Recording { front, audio: vec![1, 2], heard: vec![true; 2 - usize::from(side)] }.bytes();
        for place in 0..whole.len() {
            judging(t, rng, &whole[..place]);
            for value in 0..=255 {
                let mut damaged = whole.clone();
                damaged[place] = value;
                assert!(value == whole[place] || plain::judge(&damaged).is_err(), "byte {place} is {value}");
                judging(t, rng, &damaged);
            }
        }
        judging(t, rng, &whole);
    }
}

fn any_front(rng: &mut Rng) -> Front {
    let any = rng.bits();
    let first = rng.pick(&[0, 0, 1, 2, u32::MAX - 1, u32::MAX, any as u32]);
    Front { side: rng.below(2) as u8, began: rng.pick(&[0, 1, 1_800_000_000, u64::MAX, any]), first }
}

fn any_recording(rng: &mut Rng) -> Recording {
    let front = any_front(rng);
    let samples = if rng.once_in(3) { 480 * (1 + rng.below(3)) + rng.below(3) - 1 } else { 1 + rng.below(400) };
    let audio = rng.bytes(2 * samples);
    let heard = (0..plain::frames(front.first, audio.len() as u32)).map(|_| rng.once_in(2)).collect();
    Recording { front, audio, heard }
}

/// Damage that a checksum or a sum would show is hidden from it now and then, so that what is judged after it is met.
fn mend(file: &mut [u8]) {
    let size = u32::from_le_bytes(file[72..76].try_into().unwrap()) as usize;
    let own = checksum(0, &file[44..64]);
    file[64..68].copy_from_slice(&own.to_le_bytes());
    let after = 76 + size + 8;
    if after + 24 <= file.len() {
        let audio = checksum(0, &file[76..76 + size]);
        file[after + 16..after + 20].copy_from_slice(&audio.to_le_bytes());
        let own = checksum(0, &file[after..after + 20]);
        file[after + 20..after + 24].copy_from_slice(&own.to_le_bytes());
    }
}

/// The other side, in the front seal, the end seal, the records or the trailer.
fn swap_sides(rng: &mut Rng, file: &mut [u8], audio: usize, records: usize) {
    let (chunk, other) = (76 + audio, [b"RGHT", b"LEFT"][usize::from(&file[48..52] == b"RGHT")]);
    match rng.below(4) {
        0 => file[48..52].copy_from_slice(other),
        1 => file[chunk + 12..chunk + 16].copy_from_slice(other),
        2 => {
            let record = rng.below(records);
            for at in if rng.once_in(2) { 0..records } else { record..record + 1 } {
                file[chunk + 32 + 8 * at + 5] ^= 1;
            }
        }
        _ => file[chunk + 32 + 8 * records + 8] ^= 1,
    }
}

fn any_file(rng: &mut Rng) -> Vec<u8> {
    let recording = any_recording(rng);
    let mut file = recording.bytes();
    match rng.below(8) {
        0 => {}
        1 => file.truncate(rng.below(file.len())),
        2 => file.extend(rng.bytes(1)),
        3 => swap_sides(rng, &mut file, recording.audio.len(), recording.heard.len()),
        4 => {
            let place = 76 + recording.audio.len() + rng.below(48 + 8 * recording.heard.len());
            file[place] = rng.bits() as u8;
        }
        5 => {
            let place = rng.below(76);
            file[place] = rng.pick(&[0, 1, 255, file[place] ^ 1]);
        }
        _ => {
            for _ in 0..1 + rng.below(3) {
                let place = rng.below(file.len());
                file[place] ^= 1 << rng.below(8);
            }
        }
    }
    if rng.once_in(2) && file.len() > 76 && u32::from_le_bytes(file[72..76].try_into().unwrap()) < 1 << 20 {
        mend(&mut file);
    }
    file
}

/// A file handed to a judge in random pieces.
fn judging(t: &mut Tally, rng: &mut Rng, file: &[u8]) {
    let bytes = file.to_vec();
    let (room, count, holds) = (rng.near(5), rng.near(11), rng.near(76));
    let (mut numbers, mut held) = (vec![rng.bits(); count], rng.bytes(holds));
    let out: Vec<u64> = (0..room).map(|_| rng.bits()).collect();
    let kept = (numbers.clone(), held.clone());
    let mut ours = out.clone();
    let given = named![bytes];
    let given = Given::new(given);
    let begun = tuppence::judge_begin(&mut numbers, &mut held);
    let (mut refused, mut at) = (begun, 0);
    while at < bytes.len() {
        let most = rng.pick(&[1, 2, 8, 75, 76, 77, 960, 5_000]);
        let end = bytes.len().min(at + 1 + rng.below(most));
        refused = refused.max(tuppence::judge_more(&mut numbers, &mut held, &bytes[at..end]));
        at = end;
    }
    let number = tuppence::judge_verdict(&mut ours, &numbers, &held);
    let fits = count == 11 && holds == 76;
    let (mut want, mut wanted) = (5, out.clone());
    if fits && room == 5 {
        match plain::judge(&bytes) {
            Ok(plain::Told { front, frames, heard }) => {
                (want, wanted) = (0, vec![front.side.into(), front.began, front.first.into(), frames, heard])
            }
            Err(part) => want = part,
        }
    }
    let wrong = if fits { 0u32 } else { 5 };
    t.judge("judge", given, values![begun, refused, number, ours], values![wrong, wrong, want, wanted]);
    if !fits {
        t.judge("judge, refused", given, values![numbers, held], values![kept.0, kept.1]);
    }
}

fn any_side(rng: &mut Rng, side: u8) -> u32 {
    if rng.once_in(6) {
        rng.pick(&[2, 3, 256, u32::MAX])
    } else {
        side.into()
    }
}

fn any_size(rng: &mut Rng) -> u32 {
    let any = rng.bits() as u32;
    rng.pick(&[0, 1, 2, 3, 960, 962, plain::MOST - 2, plain::MOST, plain::MOST + 2, OPEN - 1, OPEN, any, any & !1])
}

fn heads(t: &mut Tally, rng: &mut Rng) {
    let Front { side, began, first } = any_front(rng);
    let (side, size, room) = (any_side(rng, side), any_size(rng), rng.near(76));
    let out = rng.bytes(room);
    let mut ours = out.clone();
    let given = named![side, began, first, size, out];
    let given = Given::new(given);
    let number = tuppence::recording_head(&mut ours, side, began, first, size);
    let (want, wanted) = match () {
        _ if room != 76 => (5u32, out.clone()),
        _ if size != OPEN && !plain::is_size(size) => (61, out.clone()),
        _ if side > 1 => (53, out.clone()),
        _ => (0, plain::head(Front { side: side as u8, began, first }, size)),
    };
    t.judge("recording_head", given, values![number, ours], values![want, wanted]);
}

fn chunks(t: &mut Tally, rng: &mut Rng) {
    let Front { side, first, .. } = any_front(rng);
    let (side, size, room, sum) = (any_side(rng, side), any_size(rng), rng.near(32), rng.bits() as u32);
    let out = rng.bytes(room);
    let mut ours = out.clone();
    let given = named![side, first, size, sum, out];
    let given = Given::new(given);
    let number = tuppence::recording_chunk(&mut ours, side, first, size, sum);
    let (want, wanted) = match () {
        _ if room != 32 => (5u32, out.clone()),
        _ if !plain::is_size(size) => (61, out.clone()),
        _ if side > 1 => (53, out.clone()),
        _ => (0, plain::chunk(side as u8, first, size, sum)),
    };
    t.judge("recording_chunk", given, values![number, ours], values![want, wanted]);
}

#[cfg(test)]
mod tests {
    use super::*;

    /// Files of each kind are made: ones that are accepted, and ones for each refusal.
    #[test]
    fn every_answer_is_met() {
        let rng = &mut Rng::new(1);
        let mut met = std::collections::BTreeSet::new();
        for _ in 0..5_000 {
            met.insert(plain::judge(&any_file(rng)).map_or_else(|part| part, |_| 0));
        }
        assert_eq!(met.into_iter().collect::<Vec<_>>(), [0, 61, 62, 63, 64, 65, 66]);
    }
}
