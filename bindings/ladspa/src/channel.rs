//! One channel of the plugin: a bench, and the samples on their way in and out of it.

use std::collections::VecDeque;
use tuppence::{Bench, Block, Format, FRAME};

/// The house model.
const MODEL: &[u8] = include_bytes!("../../../host/model/house.rnn");

/// How many samples later a sample comes out: a frame that the denoiser needs, and one in which samples wait until a
/// frame is complete.
pub const LATENCY: usize = 2 * FRAME;

pub struct Channel {
    number: u32,
    bench: Bench,
    /// A frame's samples as they come, as bytes of floats.
    block: Vec<u8>,
    /// Cleaned samples that were not fetched yet.
    cleaned: VecDeque<f32>,
}

impl Channel {
    pub fn new(number: u32) -> Option<Channel> {
        let bench = Bench::open(number, MODEL).ok()?;
        let mut channel = Channel {
            number,
            bench,
            block: Vec::with_capacity(4 * FRAME),
            cleaned: VecDeque::with_capacity(8 * FRAME),
        };
        channel.wait();
        Some(channel)
    }

    /// Fills the queue with the silence in which the first frame is collected.
    fn wait(&mut self) {
        self.cleaned.extend([0.0; FRAME]);
    }

    /// Begins anew, as if nothing had been recorded.
    pub fn restart(&mut self) {
        if let Ok(bench) = Bench::open(self.number, MODEL) {
            self.bench = bench;
        }
        self.block.clear();
        self.cleaned.clear();
        self.wait();
    }

    /// Takes a sample, of which 1.0 is full scale. One that is not a number is taken as silence.
    pub fn put(&mut self, sample: f32) {
        let sample = if sample.is_finite() { sample } else { 0.0 };
        self.block.extend(sample.to_le_bytes());
        if self.block.len() == 4 * FRAME {
            self.feed();
        }
    }

    /// Cleans a whole frame. A refusal cannot come, because the block is a frame of finite numbers; silence would stand
    /// in for it.
    fn feed(&mut self) {
        let block = Block { bytes: &self.block, format: Format::Float, channels: 1, channel: 0 };
        match self.bench.feed(block) {
            Ok(fed) => {
                let samples = fed.cleaned.chunks_exact(2).map(|two| i16::from_le_bytes([two[0], two[1]]));
                self.cleaned.extend(samples.map(|sample| f32::from(sample) / 32_768.0));
            }
            Err(_) => self.cleaned.extend([0.0; FRAME]),
        }
        self.block.clear();
    }

    /// The next cleaned sample. There is one for each that was put.
    pub fn get(&mut self) -> f32 {
        self.cleaned.pop_front().unwrap_or(0.0)
    }
}

#[cfg(test)]
mod tests {
    use super::*;

    /// What comes out of a channel for these samples and as much silence as the latency.
    fn through(samples: &[f32]) -> Vec<f32> {
        let mut channel = Channel::new(0).unwrap();
        let mut out = Vec::new();
        for sample in samples.iter().copied().chain([0.0; LATENCY]) {
            channel.put(sample);
            out.push(channel.get());
        }
        out.split_off(LATENCY)
    }

    /// A second of noise and of a tone, as 16-bit samples.
    fn sound() -> Vec<i16> {
        let mut x = 12u64;
        let mut sample = |i: usize| {
            x ^= x << 13;
            x ^= x >> 7;
            x ^= x << 17;
            (x >> 53) as i16 - 1_024 + if (i / 120).is_multiple_of(2) { 3_000 } else { -3_000 }
        };
        (0..48_000).map(&mut sample).collect()
    }

    #[test]
    fn gives_what_a_feed_gives() {
        let sound = sound();
        let floats: Vec<f32> = sound.iter().map(|sample| f32::from(*sample) / 32_768.0).collect();
        let (mut bench, mut wanted) = (Bench::open(0, MODEL).unwrap(), Vec::new());
        let silence = [0i16; LATENCY];
        let bytes: Vec<u8> = sound.iter().chain(&silence).flat_map(|sample| sample.to_le_bytes()).collect();
        for bytes in bytes.chunks(2 * 1_000) {
            let fed = bench.feed(Block { bytes, format: Format::Bits16, channels: 1, channel: 0 }).unwrap();
            wanted.extend(fed.cleaned.chunks(2).map(|two| f32::from(i16::from_le_bytes([two[0], two[1]])) / 32_768.0));
        }
        assert_eq!(through(&floats), wanted[FRAME..FRAME + floats.len()]);
    }

    #[test]
    fn begins_anew() {
        let floats: Vec<f32> = sound().iter().map(|sample| f32::from(*sample) / 32_768.0).collect();
        let mut channel = Channel::new(0).unwrap();
        let mut run = |count: usize| -> Vec<f32> {
            channel.restart();
            floats[..count].iter().map(|sample| (channel.put(*sample), channel.get()).1).collect()
        };
        let (first, second) = (run(5_000), run(7_777));
        assert_eq!(first, second[..5_000]);
    }

    #[test]
    fn no_number_is_silence() {
        let (mut broken, mut silent) = (vec![0.1; 2_000], vec![0.1; 2_000]);
        for (at, bad) in [(3, f32::NAN), (700, f32::INFINITY), (1_999, f32::NEG_INFINITY)] {
            (broken[at], silent[at]) = (bad, 0.0);
        }
        assert_eq!(through(&broken), through(&silent));
    }
}
