//! How much noise was taken away: by how many decibels the frames without a voice are softer, the middle one of them.
//! (Of their powers together the end of a word, which is loud and not likely, would be all.)

use crate::cleaning::measured::Measured;
use crate::FRAME;
use std::collections::VecDeque;

/// The box's high-pass filter, which comes in front of everything: what it takes away was not to be heard.
pub const HIGH_PASS: [f32; 4] = [-1.99599, 0.996, -2.0, 1.0];

/// The power of each whole frame that was not told of yet.
#[derive(Default)]
struct Powers {
    frames: VecDeque<f64>,
    sum: f64,
    samples: usize,
}

impl Powers {
    /// So many samples more of the frame, whose squares are now so much together.
    fn add(&mut self, samples: usize, sum: f64) {
        self.samples += samples;
        self.sum = sum;
        if self.samples == FRAME {
            self.frames.push_back(self.sum);
            (self.sum, self.samples) = (0.0, 0);
        }
    }
}

/// A sum, and the squares of these samples behind the high-pass filter added to it. It is in f64 throughout: this is
/// for measuring alone.
fn high_passed(mut sum: f64, [mut m0, mut m1]: [f64; 2], samples: &[f32]) -> (f64, [f64; 2]) {
    let [a0, a1, b0, b1] = HIGH_PASS.map(f64::from);
    for x in samples {
        let x = f64::from(*x);
        let y = x + m0;
        (m0, m1) = (m1 + b0 * x - a0 * y, b1 * x - a1 * y);
        sum += y * y;
    }
    (sum, [m0, m1])
}

/// Tenths of a decibel, counted from so many below 0 on; the last stands for all that is more.
const BELOW: f64 = 200.0;
const TENTHS: usize = 1_201;

pub struct Pauses {
    memory: [f64; 2],
    before: Powers,
    after: Powers,
    /// Whether a voice was likely, of the frames whose samples did not come yet.
    voices: VecDeque<bool>,
    begun: bool,
    /// How many frames without a voice are softer by so many tenths.
    softer: Vec<u64>,
}

impl Default for Pauses {
    fn default() -> Pauses {
        let [before, after] = [Powers::default(), Powers::default()];
        Pauses { memory: [0.0; 2], before, after, voices: VecDeque::new(), begun: false, softer: vec![0; TENTHS] }
    }
}

impl Pauses {
    /// Samples of one frame as they were recorded.
    pub fn before(&mut self, samples: &[f32]) {
        let (sum, memory) = high_passed(self.before.sum, self.memory, samples);
        self.before.add(samples.len(), sum);
        self.memory = memory;
    }

    /// Samples of one frame as they came out.
    pub fn after(&mut self, part: &Measured) {
        self.after.add(part.samples, self.after.sum + part.squares);
        self.count();
    }

    /// The next frame. What comes out of it belongs to the one before it, so that the first has none.
    pub fn frame(&mut self, voice: bool) {
        if std::mem::replace(&mut self.begun, true) {
            self.voices.push_back(voice);
            self.count();
        }
    }

    /// Counts the frames of which all has come: how likely a voice is, and the samples before and after.
    fn count(&mut self) {
        while let (Some(voice), Some(before), Some(after)) =
            (self.voices.front(), self.before.frames.front(), self.after.frames.front())
        {
            if !voice && *before > 0.0 {
                let tenths = (100.0 * (before / after).log10() + BELOW).round();
                self.softer[(tenths.max(0.0) as usize).min(TENTHS - 1)] += 1;
            }
            self.voices.pop_front();
            self.before.frames.pop_front();
            self.after.frames.pop_front();
        }
    }

    /// Decibels by which the noise is lower, without end where nothing is left of it; `None` where there was none.
    pub fn taken(&self) -> Option<f64> {
        let (all, mut so_far) = (self.softer.iter().sum::<u64>(), 0);
        let middle = self.softer.iter().position(|count| {
            so_far += count;
            2 * so_far > all
        })?;
        Some(if middle == TENTHS - 1 { f64::INFINITY } else { (middle as f64 - BELOW) / 10.0 })
    }
}

#[cfg(test)]
mod tests {
    use super::*;

    /// Noise of 100 that comes out as 10 in every other frame, which has no voice: 20 dB. The voice's frames do not
    /// count.
    #[test]
    fn a_tenth_is_left() {
        let mut pauses = Pauses::default();
        let tone = |loud: f32| (0..FRAME).map(|i| if i % 2 == 0 { loud } else { -loud }).collect::<Vec<f32>>();
        for _ in 0..200 {
            pauses.before(&tone(100.0));
        }
        pauses.frame(true);
        for number in 0..199 {
            pauses.after(&Measured::of(&tone(if number % 2 == 0 { 5_000.0 } else { 10.0 })));
            pauses.frame(number % 2 == 0);
        }
        let taken = pauses.taken().unwrap();
        assert!((19.8..20.2).contains(&taken), "{taken}");
        assert_eq!((pauses.before.frames.len(), pauses.after.frames.len()), (1, 0));
    }

    /// Whatever comes first, and in whatever blocks, it is the same.
    #[test]
    fn in_any_order() {
        let blocks = |frames: usize, frames_first: bool| {
            let (mut pauses, mut rng) = (Pauses::default(), crate::cleaning::demo::Rng(5));
            for block in 0..240 / frames {
                let voices = (frames * block..frames * (block + 1)).map(|number| number % 3 == 0);
                let samples: Vec<f32> = (0..frames * FRAME).map(|_| 300.0 * rng.number() as f32).collect();
                let softer: Vec<f32> = samples.iter().map(|x| x * x / 3_000.0).collect();
                samples.chunks(FRAME).for_each(|part| pauses.before(part));
                let softer = softer.chunks(FRAME).map(Measured::of);
                if frames_first {
                    voices.for_each(|voice| pauses.frame(voice));
                    softer.for_each(|part| pauses.after(&part));
                } else {
                    softer.for_each(|part| pauses.after(&part));
                    voices.for_each(|voice| pauses.frame(voice));
                }
            }
            pauses.softer
        };
        let wanted = blocks(1, false);
        assert_eq!(wanted.iter().sum::<u64>(), 160);
        for frames in [1, 2, 8, 240] {
            assert!(blocks(frames, true) == wanted && blocks(frames, false) == wanted, "{frames} frames at a time");
        }
    }

    #[test]
    fn no_noise_and_none_left() {
        let mut pauses = Pauses::default();
        assert_eq!(pauses.taken(), None);
        pauses.before(&[1_000.0; FRAME]);
        pauses.after(&Measured::of(&[0.0; FRAME]));
        pauses.frame(false);
        pauses.frame(false);
        assert_eq!(pauses.taken(), Some(f64::INFINITY));
    }
}
