//! Document 02, request 14: a torn sheet mended, held against plain Rust (`plain_sheet`).

use crate::plain_sheet as plain;
use crate::rng::Rng;
use crate::sheet::{any_file, any_whole};
use crate::tally::{Given, Tally};
use crate::{named, values, Options};

pub fn compare(options: &Options) -> Tally {
    let mut tally = Tally::new("mend");
    let rng = &mut Rng::new(options.seed);
    let t = &mut tally;
    known_limit(t, rng);
    for records in 0..=6 {
        for side in [0, 1] {
            for audio in [0, 1, 7, 8, 44] {
                every_byte(t, rng, audio, records, side);
            }
        }
    }
    for _ in 0..options.calls(20_000) {
        let file = any_file(rng);
        let place = any_place(rng, &file);
        one(t, rng, &file, place);
    }
    tally
}

/// A trailer that looks like a good record is taken as one. The smallest such file: the first half of the trailer of a
/// sheet without records is a silent frame 0 of the left side.
fn known_limit(t: &mut Tally, rng: &mut Rng) {
    let (mended, records) = plain::mend(&[0; 8], 0).unwrap();
    assert_eq!((records, plain::entry(&mended, 0)), (1, Ok(0)));
    for _ in 0..20 {
        one(t, rng, &[0; 8], 0);
    }
}

/// A sheet torn at every byte, and mended from where its audio ends.
fn every_byte(t: &mut Tally, rng: &mut Rng, audio: usize, records: usize, side: u32) {
    let whole = any_whole(audio, records, side, rng);
    for length in 0..=whole.file.len() {
        one(t, rng, &whole.file[..length], audio as u64);
    }
}

fn any_place(rng: &mut Rng, file: &[u8]) -> u64 {
    let start = plain::read(file).map_or(rng.below(40), |found| found.start) as u64;
    match rng.below(8) {
        0 => rng.below(file.len() + 2) as u64,
        1 => start + 8,
        2 => rng.pick(&[u64::MAX, 1 << 63, file.len() as u64, file.len() as u64 + 1]),
        _ => start,
    }
}

fn one(t: &mut Tally, rng: &mut Rng, file: &[u8], place: u64) {
    let bytes = file.to_vec();
    let mended = plain::mend(file, place);
    let numbers: Vec<u64> = (0..rng.near(2)).map(|_| rng.bits()).collect();
    let room = rng.near(mended.as_ref().map_or(file.len() + 16, |(mended, _)| mended.len())) + rng.pick(&[0, 0, 5]);
    let out = rng.bytes(room);
    let (mut wanted, mut theirs, mut want) = (numbers.clone(), out.clone(), 5);
    if numbers.len() == 2 {
        want = match mended {
            Err(refused) => refused,
            Ok((mended, _)) if out.len() < mended.len() => 36,
            Ok((mended, records)) => {
                wanted = vec![mended.len() as u64, records as u64];
                theirs[..mended.len()].copy_from_slice(&mended);
                // what is written always reads, with its records starting there
                let found = plain::read(&mended).unwrap();
                assert_eq!((found.start as u64, found.records), (place, records));
                0
            }
        };
    }
    let (mut told, mut ours) = (numbers.clone(), out.clone());
    let given = named![numbers, out, bytes, place];
    let given = Given::new(given);
    let number = tuppence::mend(&mut told, &mut ours, file, place);
    t.judge("mend", given, values![number, told, ours], values![want, wanted, theirs]);
}
