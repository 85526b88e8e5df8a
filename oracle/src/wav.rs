//! Checksums, seals and WAV heads, held against plain Rust (`plain_wav`).

use crate::plain_wav::{self as plain, Numbers, Seal, WORDS};
use crate::rng::Rng;
use crate::tally::{Given, Tally};
use crate::{named, values, Options};

pub fn compare(options: &Options) -> Tally {
    let mut tally = Tally::new("wav");
    let rng = &mut Rng::new(options.seed);
    let t = &mut tally;
    every_byte(t, rng);
    for _ in 0..options.calls(100_000) {
        let file = any_file(rng);
        reading(t, rng, &file);
    }
    for _ in 0..options.calls(100_000) / 5 {
        standing_anywhere(t, rng);
        checksums(t, rng);
        heads(t, rng);
        seals(t, rng);
    }
    tally
}

/// Every byte of a head and of a seal changed in turn, and both cut at every byte.
fn every_byte(t: &mut Tally, rng: &mut Rng) {
    let head = [plain::head(48_000, 4, 0), rng.bytes(4)].concat();
    let short = plain::checksum(0, &head[44..]);
    let seal = Seal { side: 1, long: 4, short }.bytes(WORDS[1]).unwrap();
    for place in 0..head.len() {
        reading(t, rng, &head[..place]);
        for value in [0, 1, 2, 3, 14, 15, 24, 25, 26, 32, 40, 64, 65, 127, 128, 254, 255, head[place] ^ 1] {
            let mut damaged = head.clone();
            damaged[place] = value;
            reading(t, rng, &damaged);
        }
    }
    for place in 0..seal.len() {
        opening(t, rng, &seal[..place]);
        for value in 0..=255 {
            let mut damaged = seal.clone();
            damaged[place] = value;
            opening(t, rng, &damaged);
        }
    }
}

/// One of these, or any number.
fn some_of(rng: &mut Rng, usual: &[u64]) -> u64 {
    let any = rng.bits();
    if rng.once_in(usual.len() + 1) {
        any
    } else {
        rng.pick(usual)
    }
}

fn chunk(name: &[u8; 4], size: u32, body: &[u8]) -> Vec<u8> {
    [&name[..], &size.to_le_bytes(), body].concat()
}

/// A format's chunk that is right, or almost.
fn any_format(rng: &mut Rng) -> Vec<u8> {
    let (tag, bits) = match rng.below(12) {
        0 => (rng.pick(&[0u16, 1, 2, 3, 7, 0xFFFE]), rng.pick(&[0u16, 8, 16, 20, 24, 32, 64])),
        k => [(1, 16), (1, 24), (1, 32), (3, 32)][k % 4],
    };
    let channels = if rng.once_in(6) { rng.pick(&[0u16, 3, 63, 64, 65, 256, 65_535]) } else { 1 + rng.below(2) as u16 };
    let wanted = channels.wrapping_mul(bits / 8);
    let block = if rng.once_in(12) { rng.pick(&[0, 1, 4, wanted ^ 1, wanted.wrapping_mul(2)]) } else { wanted };
    let rate = some_of(rng, &[48_000, 44_100, 8_000, 0, u64::MAX]) as u32;
    let extensible = rng.once_in(3);
    let mut body = if extensible { 0xFFFE } else { tag }.to_le_bytes().to_vec();
    body.extend(channels.to_le_bytes());
    body.extend(rate.to_le_bytes());
    body.extend(rate.wrapping_mul(block.into()).to_le_bytes());
    body.extend(block.to_le_bytes());
    body.extend(bits.to_le_bytes());
    if extensible {
        body.extend([22, 0, 16, 0, 3, 0, 0, 0]);
        body.extend(tag.to_le_bytes());
        body.extend(b"\0\0\0\0\x10\0\x80\0\0\xaa\0\x38\x9b\x71");
    }
    if rng.once_in(8) {
        body.resize(rng.pick(&[14, 15, 16, 17, 18, 25, 26, 27, 40, 41]), 0);
    }
    let size = if rng.once_in(16) { rng.pick(&[0, 14, 15, 16, 26, 41, u32::MAX]) } else { body.len() as u32 };
    body.resize(body.len() + size as usize % 2, 0);
    chunk(b"fmt ", size, &body)
}

/// A chunk that a reader passes over.
fn any_other(rng: &mut Rng) -> Vec<u8> {
    let size = rng.below(40);
    let body = rng.bytes(size + size % 2);
    chunk(rng.pick(&[b"LIST", b"bext", b"JUNK", b"fact", b"side", b"fmt\0", b"DATA"]), size as u32, &body)
}

/// A whole or damaged file: chunks in front, odd sizes, and sizes that a stream has.
fn any_file(rng: &mut Rng) -> Vec<u8> {
    let mut file = [&b"RIFF"[..], &(rng.bits() as u32).to_le_bytes(), b"WAVE"].concat();
    for _ in 0..rng.below(3) {
        file.extend(any_other(rng));
    }
    for _ in 0..rng.pick(&[1, 1, 1, 1, 1, 1, 0, 2]) {
        file.extend(any_format(rng));
    }
    for _ in 0..rng.below(2) {
        file.extend(any_other(rng));
    }
    let length = rng.below(60);
    let audio = rng.bytes(length);
    let size = some_of(rng, &[length as u64, length as u64, 0, u64::MAX]) as u32;
    file.extend(chunk(b"data", size, &audio));
    match rng.below(8) {
        0 => file.truncate(rng.below(file.len() + 1)),
        1 => {
            let place = rng.below(file.len());
            file.insert(place, rng.bits() as u8);
        }
        2 => drop(file.remove(rng.below(file.len()))),
        3 | 4 => {
            for _ in 0..1 + rng.below(2) {
                let place = rng.below(file.len().min(80));
                file[place] = if rng.once_in(2) { rng.bits() as u8 } else { rng.pick(&[0, 1, 2, 16, 32, 255]) };
            }
        }
        _ => (),
    }
    file
}

/// A file read to its audio, chunk by chunk, as a host does it: each call is lent 34 bytes or more from the place on.
fn reading(t: &mut Tally, rng: &mut Rng, file: &[u8]) {
    let bytes = file.to_vec();
    let given = named![bytes];
    let given = Given::new(given);
    let mut ours: Numbers = [0; 5];
    let (number, before) = loop {
        let rest = file.get(ours[0] as usize..).unwrap_or(&[]);
        let lent = if rng.once_in(2) { rest } else { &rest[..rest.len().min(34 + rng.below(3))] };
        let before = ours;
        let number = tuppence::wav_read(&mut ours, lent);
        // a reading that goes on is further on, so it ends
        if number != 40 || ours[0] < before[0] + 8 {
            break (number, before);
        }
    };
    let (want, wanted) = match plain::read(file) {
        Ok((start, [bits, channels, rate], size)) => (0, [start, bits, channels, rate, size.into()]),
        Err(refused) => (refused, before),
    };
    t.judge("wav_read, a file", given, values![number, ours], values![want, wanted]);
}

/// One call of a reading that may stand anywhere.
fn standing_anywhere(t: &mut Tally, rng: &mut Rng) {
    let count = rng.near(5);
    let mut numbers: Vec<u64> =
        (0..count).map(|_| if rng.once_in(3) { rng.bits() } else { rng.below(3) as u64 }).collect();
    if let Some(place) = numbers.first_mut() {
        *place = rng.pick(&[0, 12, 36, 1 << 40, (1 << 63) - 1, 1 << 63, u64::MAX, *place]);
    }
    let mut bytes = match rng.below(4) {
        0 => any_file(rng),
        1 => any_format(rng),
        2 => chunk(b"data", rng.bits() as u32, &[]),
        _ => any_other(rng),
    };
    bytes.truncate(rng.near(bytes.len()));
    let mut ours = numbers.clone();
    let given = named![numbers, bytes];
    let given = Given::new(given);
    let number = tuppence::wav_read(&mut ours, &bytes);
    let (mut want, mut wanted) = (5, numbers.clone());
    if let Ok(state) = Numbers::try_from(&numbers[..]) {
        match plain::step(state, &bytes) {
            Ok((told, next)) => (want, wanted) = (told, next.to_vec()),
            Err(refused) => want = refused,
        }
    }
    t.judge("wav_read", given, values![number, ours], values![want, wanted]);
}

/// Bytes handed in at once, and in two parts.
fn checksums(t: &mut Tally, rng: &mut Rng) {
    let most = if rng.once_in(50) { 5_000 } else { 100 };
    let length = rng.below(most);
    let bytes = rng.bytes(length);
    let before = if rng.once_in(2) { 0 } else { rng.bits() as u32 };
    let cut = rng.below(length + 1);
    let given = named![before, bytes];
    let given = Given::new(given);
    let whole = tuppence::checksum(before, &bytes);
    let parts = tuppence::checksum(tuppence::checksum(before, &bytes[..cut]), &bytes[cut..]);
    let wanted = plain::checksum(before, &bytes);
    t.judge("checksum", given, values![whole, parts], values![wanted, wanted]);
}

fn heads(t: &mut Tally, rng: &mut Rng) {
    let usual = [0, 1, 2, 3, 48_000, 96_000, 1 << 31, (1 << 32) - 37, (1 << 32) - 36, (1 << 32) - 2, (1 << 32) - 1];
    let [rate, size, behind] = std::array::from_fn(|_| some_of(rng, &usual) as u32);
    let room = rng.near(44);
    let out = rng.bytes(room);
    let mut ours = out.clone();
    let given = named![rate, size, behind, out];
    let given = Given::new(given);
    let number = tuppence::wav_head(&mut ours, rate, size, behind);
    let (want, wanted) = if room == 44 { (0u32, plain::head(rate, size, behind)) } else { (5, out.clone()) };
    t.judge("wav_head", given, values![number, ours], values![want, wanted]);
    if number == 0 {
        reading(t, rng, &ours);
    }
}

/// A front seal or an end seal written; and read, whole and damaged.
fn seals(t: &mut Tally, rng: &mut Rng) {
    let side = if rng.once_in(6) { rng.pick(&[2, 3, 256, u32::MAX]) } else { rng.below(2) as u32 };
    let long = some_of(rng, &[0, 960, u32::MAX.into(), 1 << 32, u64::MAX]);
    let (short, which, room) = (rng.bits() as u32, rng.below(2), rng.near(24));
    let out = rng.bytes(room);
    let mut ours = out.clone();
    let given = named![side, long, short, out];
    let given = Given::new(given);
    let write = [tuppence::front_write, tuppence::seal_write][which];
    let number = write(&mut ours, side, long, short);
    let (mut want, mut wanted) = (5, out.clone());
    if room == 24 {
        match (Seal { side, long, short }).bytes(WORDS[which]) {
            Ok(bytes) => (want, wanted) = (0, bytes),
            Err(refused) => want = refused,
        }
    }
    t.judge(["front_write", "seal_write"][which], given, values![number, ours], values![want, wanted]);
    opening(t, rng, &ours);
    ours.extend(rng.bytes(3));
    for _ in 0..rng.below(3) {
        let place = rng.below(ours.len());
        ours[place] = rng.bits() as u8;
    }
    if rng.once_in(4) && ours.len() >= 24 {
        ours[4..8].copy_from_slice(rng.pick(&[b"LEFT", b"RGHT", b"left", b"LGHT"]));
    }
    if rng.once_in(2) && ours.len() >= 24 {
        let own = plain::checksum(0, &ours[..20]);
        ours[20..24].copy_from_slice(&own.to_le_bytes());
    }
    opening(t, rng, &ours);
}

/// Some bytes read as a front seal, and as an end seal.
fn opening(t: &mut Tally, rng: &mut Rng, seal: &[u8]) {
    for which in 0..2 {
        let bytes = seal.to_vec();
        let numbers: Vec<u64> = (0..rng.near(3)).map(|_| rng.bits()).collect();
        let mut ours = numbers.clone();
        let given = named![numbers, bytes];
        let given = Given::new(given);
        let read = [tuppence::front_read, tuppence::seal_read][which];
        let number = read(&mut ours, &bytes);
        let (mut want, mut wanted) = (5, numbers.clone());
        if numbers.len() == 3 {
            match Seal::read(WORDS[which], seal) {
                Ok(s) => (want, wanted) = (0, vec![s.side.into(), s.long, s.short.into()]),
                Err(refused) => want = refused,
            }
        }
        t.judge(["front_read", "seal_read"][which], given, values![number, ours], values![want, wanted]);
    }
}

#[cfg(test)]
mod tests {
    use super::*;

    /// Files of each kind are made: ones that are read, and ones for each refusal.
    #[test]
    fn every_answer_is_met() {
        let rng = &mut Rng::new(1);
        let mut met = std::collections::BTreeSet::new();
        for _ in 0..20_000 {
            met.insert(plain::read(&any_file(rng)).map_or_else(|refused| refused, |_| 0));
        }
        assert_eq!(met.into_iter().collect::<Vec<_>>(), [0, 41, 42, 43, 44, 45, 46, 47]);
    }

    /// The number that tells CRC-32 from others.
    #[test]
    fn the_checksum_of_nine_digits() {
        assert_eq!(plain::checksum(0, b"123456789"), 0xCBF4_3926);
    }
}
