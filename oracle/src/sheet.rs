//! Document 02, request 02: the side sheet, held against plain Rust (`plain_sheet`).

use crate::plain_sheet as plain;
use crate::rng::Rng;
use crate::tally::{Given, Tally};
use crate::{named, values, Options};

pub fn compare(options: &Options) -> Tally {
    let mut tally = Tally::new("sheet");
    let rng = &mut Rng::new(options.seed);
    let t = &mut tally;
    for records in [0, 1, 2, 5] {
        for side in [0, 1] {
            let audio = rng.below(20);
            let whole = any_whole(audio, records, side, rng);
            in_turn(t, rng, &whole);
        }
    }
    for _ in 0..options.calls(20_000) {
        let file = any_file(rng);
        reading(t, rng, &file);
        writing(t, rng);
        parts(t, rng);
    }
    if options.all {
        most(t);
    }
    tally
}

/// Some audio, and a sheet behind it.
pub struct Whole {
    pub audio: usize,
    pub records: usize,
    pub file: Vec<u8>,
}

fn entry(rng: &mut Rng) -> u64 {
    (rng.bits() & 0xffff_ffff) + ((rng.below(2) as u64) << 32)
}

pub fn any_whole(audio: usize, records: usize, side: u32, rng: &mut Rng) -> Whole {
    let mut file = rng.bytes(audio);
    let entries: Vec<u64> = (0..records).map(|_| entry(rng)).collect();
    file.resize(audio + 8 * records + 16, 0);
    assert_eq!(plain::write(&mut file[audio..], side, &entries), 0);
    Whole { audio, records, file }
}

/// The sum that the trailer notes, made right again.
fn sum_anew(whole: &mut Whole) {
    let Whole { audio, file, .. } = whole;
    let end = file.len() - 16;
    let sum: u32 = file[*audio..end].iter().map(|b| *b as u32).sum();
    file[end + 12..].copy_from_slice(&sum.to_le_bytes());
}

/// Every byte of the trailer and of the records damaged in turn, with the sum as it was and made right again; then
/// distances and numbers of records at the limits.
fn in_turn(t: &mut Tally, rng: &mut Rng, whole: &Whole) {
    let Whole { audio, records, ref file } = *whole;
    reading(t, rng, file);
    for place in audio..file.len() {
        for value in [0, 1, 2, 3, 7, 8, 127, 128, 255, file[place] ^ 1, file[place].wrapping_add(8)] {
            let mut damaged = Whole { audio, records, file: file.clone() };
            damaged.file[place] = value;
            reading(t, rng, &damaged.file);
            sum_anew(&mut damaged);
            reading(t, rng, &damaged.file);
        }
    }
    let (n, end) = (records as u32, file.len() - 16);
    let numbers = [
        n,
        n + 1,
        n.wrapping_sub(1),
        0,
        end as u32 / 8,
        end as u32 / 8 + 1,
        1 << 28,
        (1 << 29) - 1,
        1 << 29,
        (1 << 29) + n,
        (7 << 29) + n,
        u32::MAX,
    ];
    let distances = numbers.iter().flat_map(|m| [-1, 0, 1].map(|d| m.wrapping_mul(8).wrapping_add_signed(d)));
    for distance in distances {
        for number in numbers {
            let mut file = file.clone();
            file[end..end + 4].copy_from_slice(&distance.to_le_bytes());
            file[end + 4..end + 8].copy_from_slice(&number.to_le_bytes());
            reading(t, rng, &file);
        }
    }
}

/// A whole or damaged file, or no such file at all.
pub fn any_file(rng: &mut Rng) -> Vec<u8> {
    let records = if rng.once_in(200) { rng.below(5_000) } else { rng.below(12) };
    let (audio, side) = (rng.below(40), rng.below(2) as u32);
    let mut whole = any_whole(audio, records, side, rng);
    let length = whole.file.len();
    for _ in 0..rng.below(3) {
        let place = if rng.once_in(2) { length - 1 - rng.below(16) } else { rng.below(length) };
        whole.file[place] = if rng.once_in(3) { rng.bits() as u8 } else { rng.pick(&[0, 1, 2, 8, 255]) };
    }
    if rng.once_in(2) {
        sum_anew(&mut whole);
    }
    match rng.below(16) {
        0 => whole.file[..rng.below(length + 1)].to_vec(),
        1 => whole.file[rng.below(length + 1)..].to_vec(),
        2 => rng.bytes(length),
        3 => vec![0; rng.below(40)],
        _ => whole.file,
    }
}

fn reading(t: &mut Tally, rng: &mut Rng, file: &[u8]) {
    let bytes = file.to_vec();
    let found = plain::read(file);
    let numbers: Vec<u64> = (0..rng.near(3)).map(|_| rng.bits()).collect();
    let mut ours = numbers.clone();
    let given = named![numbers, bytes];
    let given = Given::new(given);
    let number = tuppence::sheet_read(&mut ours, &bytes);
    let (mut wanted, mut want) = (numbers.clone(), 5);
    if numbers.len() == 3 {
        match found {
            Ok(f) => (wanted, want) = (vec![f.start as u64, f.records as u64, f.side as u64], 0),
            Err(refused) => want = refused,
        }
    }
    t.judge("sheet_read", given, values![number, ours], values![want, wanted]);

    let records = found.map_or(3, |f| f.records) as u64;
    let index = match rng.below(8) {
        0 => records,
        1 => records.wrapping_sub(1),
        2 => rng.pick(&[u64::MAX, 1 << 32, 1 << 61, records + (1 << 61)]),
        _ => rng.below(records as usize + 1) as u64,
    };
    let held: Vec<u64> = (0..rng.near(1)).map(|_| rng.bits()).collect();
    let mut ours = held.clone();
    let given = named![held, bytes, index];
    let given = Given::new(given);
    let number = tuppence::sheet_entry(&mut ours, &bytes, index);
    let (mut wanted, mut want) = (held.clone(), 5);
    if held.len() == 1 {
        match plain::entry(file, index) {
            Ok(entry) => (wanted, want) = (vec![entry], 0),
            Err(refused) => want = refused,
        }
    }
    t.judge("sheet_entry", given, values![number, ours], values![want, wanted]);
}

fn writing(t: &mut Tally, rng: &mut Rng) {
    let mut entries: Vec<u64> = (0..rng.below(12)).map(|_| entry(rng)).collect();
    if !entries.is_empty() && rng.once_in(4) {
        let place = rng.below(entries.len());
        let any = rng.bits();
        entries[place] = rng.pick(&[1 << 33, (1 << 33) - 1, u64::MAX, 1 << 40, any]);
    }
    let side = if rng.once_in(5) { rng.pick(&[2, 3, 256, u32::MAX]) } else { rng.below(2) as u32 };
    let room = rng.near(8 * entries.len() + 16) + rng.pick(&[0, 0, 0, 5]);
    let out = rng.bytes(room);
    let (mut ours, mut theirs) = (out.clone(), out.clone());
    let given = named![side, entries, out];
    let given = Given::new(given);
    let number = tuppence::sheet_write(&mut ours, side, &entries);
    let want = plain::write(&mut theirs, side, &entries);
    t.judge("sheet_write", given, values![number, ours], values![want, theirs]);
}

/// A sheet in parts of any length, some of them refused, and its trailer: in a row they are the sheet written at once.
fn parts(t: &mut Tally, rng: &mut Rng) {
    let side = rng.below(2) as u32;
    let (mut numbers, mut row, mut all) = ([0; 2], vec![], vec![]);
    for _ in 0..rng.below(4) {
        let entries: Vec<u64> = (0..rng.below(6)).map(|_| entry(rng)).collect();
        let mut records = vec![0; 8 * entries.len()];
        if one_part(t, rng, &mut numbers, &mut records, side, &entries) == 0 {
            row.extend(records);
            all.extend(entries);
        }
        let (wrong, few) = ([entry(rng) | 1 << 33], [entry(rng)]);
        let other = rng.pick(&[2, 256, u32::MAX]);
        let mut many = [rng.pick(&[536_870_910, 536_870_911, 1 << 32, u64::MAX]), rng.bits()];
        match rng.below(6) {
            0 => one_part(t, rng, &mut numbers, &mut [1; 8], side, &wrong),
            1 => one_part(t, rng, &mut numbers, &mut [1; 7], side, &few),
            2 => one_part(t, rng, &mut numbers, &mut [1; 8], other, &few),
            3 => one_part(t, rng, &mut numbers.repeat(2), &mut [1; 8], side, &few),
            4 => one_part(t, rng, &mut many, &mut [1; 9], side, &few),
            _ => 0,
        };
    }
    let mut trailer = [0; 16];
    one_trailer(t, rng, &mut trailer, side, numbers[0], numbers[1]);
    row.extend(trailer);
    let mut whole = vec![0; 8 * all.len() + 16];
    let want = plain::write(&mut whole, side, &all);
    t.judge("sheet in parts", Given::new(named![side, all]), values![0u32, row], values![want, whole]);
    let count = rng.pick(&[0, 536_870_911, 536_870_912, u64::MAX]);
    let room = rng.near(16);
    let (sum, mut out, side) = (rng.bits(), rng.bytes(room), rng.pick(&[0, 1, 2, u32::MAX]));
    one_trailer(t, rng, &mut out, side, count, sum);
}

/// One call, with the numbers and the records that it leaves.
fn one_part(t: &mut Tally, rng: &mut Rng, numbers: &mut [u64], out: &mut [u8], side: u32, entries: &[u64]) -> u32 {
    let out_before = rng.bytes(out.len());
    out.copy_from_slice(&out_before);
    let (list, before) = (entries.to_vec(), numbers.to_vec());
    let given = named![before, out_before, side, list];
    let given = Given::new(given);
    let number = tuppence::sheet_records(numbers, out, side, &list);
    let (mut want, mut wanted, mut theirs) = (5, before.clone(), out_before.clone());
    if let [count, passed] = before[..] {
        match plain::records(&mut theirs, side, entries, count, passed) {
            Ok(told) => (want, wanted) = (0, told.to_vec()),
            Err(refused) => want = refused,
        }
    }
    t.judge("sheet_records", given, values![number, numbers.to_vec(), out.to_vec()], values![want, wanted, theirs]);
    number
}

fn one_trailer(t: &mut Tally, rng: &mut Rng, out: &mut [u8], side: u32, count: u64, sum: u64) {
    let out_before = rng.bytes(out.len());
    out.copy_from_slice(&out_before);
    let given = named![out_before, side, count, sum];
    let given = Given::new(given);
    let number = tuppence::sheet_trailer(out, side, count, sum);
    let mut theirs = out_before.clone();
    let want = plain::trailer_of(&mut theirs, side, count, sum);
    t.judge("sheet_trailer", given, values![number, out.to_vec()], values![want, theirs]);
}

/// The largest number of records, and one more: neither slice is written, and the longer one is not even read.
fn most(t: &mut Tally) {
    let entries = vec![0u64; 536_870_912];
    for (count, side, want) in [(536_870_912, 9, 32u32), (536_870_911, 9, 33), (536_870_911, 1, 36)] {
        let mut out = vec![7u8; 100];
        let number = tuppence::sheet_write(&mut out, side, &entries[..count]);
        let kept = vec![7u8; 100];
        t.judge("sheet_write, many", Given::new(named![side]), values![number, out], values![want, kept]);
    }
}
