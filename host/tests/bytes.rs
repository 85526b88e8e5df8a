//! What the box makes of recorded bytes, and of samples, is what plain Rust makes of them, bit for bit; and what it
//! writes of a recording is what comes of these samples, taken by themselves and rounded.

mod common;

use common::*;
use std::fs;
use std::path::Path;
use tuppencehop::cleaning::demo::{Rng, HOUSE};
use tuppencehop::reading::wav;
use tuppencehop::FRAME;

const ENDS: [f32; 2] = [-32_768.0, 32_767.0];

/// A stereo recording.
fn recording(tag: u16, bits: u16, audio: &[u8]) -> Vec<u8> {
    let block = bits / 4;
    let mut file = b"RIFF....WAVEfmt ".to_vec();
    file.extend(16u32.to_le_bytes());
    file.extend([tag, 2].map(u16::to_le_bytes).concat());
    file.extend([48_000, 48_000 * u32::from(block)].map(u32::to_le_bytes).concat());
    file.extend([block, bits].map(u16::to_le_bytes).concat());
    file.extend(b"data");
    file.extend((audio.len() as u32).to_le_bytes());
    file.extend(audio);
    file
}

/// A sample; of 24 bits the lowest byte is a fraction, and a float's full scale is 1.
fn number(bytes: &[u8]) -> f32 {
    let number = match *bytes {
        [a, b] => f32::from(i16::from_le_bytes([a, b])),
        [a, b, c] => i32::from_le_bytes([0, a, b, c]) as f32 / 65_536.0,
        [a, b, c, d] => 32_768.0 * f32::from_le_bytes([a, b, c, d]),
        _ => panic!("no sample has {} bytes", bytes.len()),
    };
    number.clamp(ENDS[0], ENDS[1])
}

/// A channel of two.
fn channel(bits: u16, audio: &[u8], channel: usize) -> Vec<f32> {
    audio.chunks_exact(usize::from(bits / 8)).skip(channel).step_by(2).map(number).collect()
}

fn packed(samples: &[f32]) -> Vec<u8> {
    samples.iter().flat_map(|x| (x.round().clamp(ENDS[0], ENDS[1]) as i16).to_le_bytes()).collect()
}

/// Both channels, as the box reads them and in plain Rust.
fn alike(tag: u16, bits: u16, audio: &[u8]) {
    let read = wav::read(&recording(tag, bits, audio)).expect("it is a recording");
    for (at, samples) in read.channels.iter().enumerate() {
        let plain = channel(bits, audio, at);
        assert_eq!(plain.len(), samples.len());
        let differs = plain.iter().zip(samples).position(|(a, b)| a.to_bits() != b.to_bits());
        assert_eq!(differs, None, "{bits} bits, channel {at}");
    }
}

#[test]
fn samples_of_16_and_of_24_bits() {
    alike(1, 16, &(0..=u16::MAX).flat_map(u16::to_le_bytes).collect::<Vec<u8>>());
    // every third, and all beside the ends and zero
    let beside = |n: u32| n.wrapping_sub(300)..n.wrapping_add(300);
    let ends = [0x7F_FFFF, 0x80_0000, 0xFF_FFFF].into_iter().flat_map(beside);
    let all = (0..0x100_0000).step_by(3).chain(ends).map(|n: u32| [n as u8, (n >> 8) as u8, (n >> 16) as u8]);
    let bytes: Vec<u8> = all.flatten().collect();
    alike(1, 24, &bytes[..bytes.len() / 6 * 6]);
}

#[test]
fn floats() {
    let finite = (0..u32::MAX).step_by(1_013).map(f32::from_bits).filter(|x| (32_768.0 * x).is_finite());
    let bytes: Vec<u8> = finite.flat_map(f32::to_le_bytes).collect();
    alike(3, 32, &bytes[..bytes.len() / 8 * 8]);
}

#[test]
fn samples_that_are_written() {
    let ties = (-33_000..33_000).map(|n| n as f32 + 0.5);
    let beside = ties.flat_map(|x| [-1, 0, 1].map(|d| f32::from_bits(x.to_bits().wrapping_add_signed(d))));
    let samples: Vec<f32> = beside.chain((0..u32::MAX).step_by(1_009).map(f32::from_bits)).collect();
    assert!(wav::write(48_000, &samples)[44..] == packed(&samples)[..]);
}

/// A bench by itself, taken in frames: its audio, and the entries of its sheet.
fn alone(samples: &[f32]) -> (Vec<u8>, Vec<u64>) {
    let (mut store, mut record, mut audio, mut entries) =
        (vec![0.0; tuppence::STORE], [0; tuppence::RECORD], vec![], vec![]);
    assert_eq!(tuppence::open_crate(&mut record, &mut store, 0, HOUSE), 0);
    let silence = vec![0.0; FRAME * (samples.len().div_ceil(FRAME) + 1) - samples.len()];
    for (number, frame) in (0..).zip([samples, &silence].concat().chunks_exact(FRAME)) {
        let (mut out, mut answer) = ([0.0; FRAME], [0.0; 3]);
        assert_eq!(tuppence::take(&mut record, &mut store, 0, frame, HOUSE, &mut out, &mut answer), 0);
        audio.extend(out);
        entries.push(number + (u64::from(answer[0] != 0.0) << 32));
    }
    (packed(&audio[FRAME..FRAME + samples.len()]), entries)
}

/// The same of a file that the box wrote, with so many bytes of audio, and its side.
fn written(path: &Path, audio: usize) -> (Vec<u8>, Vec<u64>, u64) {
    let (file, mut numbers, mut entry) = (fs::read(path).unwrap(), [0; 3], [0]);
    assert_eq!(tuppence::sheet_read(&mut numbers, &file), 0);
    let entries = (0..numbers[1]).map(|index| {
        assert_eq!(tuppence::sheet_entry(&mut entry, &file, index), 0);
        entry[0]
    });
    (file[HEAD..HEAD + audio].to_vec(), entries.collect(), numbers[2])
}

/// Seeded noise over a buzz, with silence now and then, of both benches in turn.
fn sound(bits: u16, length: usize) -> Vec<u8> {
    let mut rng = Rng(35);
    let sample = |i: usize| {
        let (noise, buzz) = ([400.0, 9_000.0][i % 2] * rng.number(), 80.0 * (i / 2 % [161, 217][i % 2]) as f64);
        let sample = if i / 2 % 9_000 > 6_000 { 0.0 } else { noise + buzz - 8_000.0 };
        match bits {
            16 => (sample as i16).to_le_bytes().to_vec(),
            24 => ((256.0 * sample) as i32).to_le_bytes()[..3].to_vec(),
            _ => (sample as f32 / 32_768.0).to_le_bytes().to_vec(),
        }
    };
    (0..2 * length).flat_map(sample).collect()
}

/// Each bench's recording is that of its own channel by itself.
#[test]
fn a_recording_of_each_format() {
    let path = folder("bytes");
    for (tag, bits) in [(1, 16), (1, 24), (3, 32)] {
        let audio = sound(bits, 20_003);
        fs::write(path.join("both.wav"), recording(tag, bits, &audio)).unwrap();
        assert_eq!(run(clean(&path, &["--both", "both.wav", "--out", "out", "--force"])).status, Some(0));
        for (at, side) in ["left", "right"].into_iter().enumerate() {
            let (wanted, entries) = alone(&channel(bits, &audio, at));
            assert!(entries.iter().any(|entry| *entry > u64::from(u32::MAX)), "nothing is heard");
            let written = written(&path.join(format!("out/{side}.wav")), wanted.len());
            assert!(written == (wanted, entries, at as u64), "{bits} bits, {side}");
        }
    }
}
