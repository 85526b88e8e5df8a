//! A made-up shift at a bench: dictations over a grinder, with pauses between them, the same for the same seed. Where
//! each dictation's first word begins is known.
#![allow(dead_code)]

use super::spoken;
use tuppencehop::cleaning::demo::{grinder, Rng};

const RATE: usize = 48_000;
/// How loud the grinder is; a voice has 3,000 while it speaks.
const GRINDER: f64 = 500.0;

pub struct Shift {
    pub samples: Vec<f32>,
    /// The sample with which the first word of each dictation begins, and the one with which its last word ends.
    pub words: Vec<[usize; 2]>,
}

fn between(rng: &mut Rng, least: f64, most: f64) -> f64 {
    least + (most - least) * (0.5 + 0.5 * rng.number())
}

/// So many seconds of a bench. Dictations are some seconds long, and the pauses between them have from `pauses[0]` to
/// `pauses[1]` seconds.
pub fn shift(seed: u64, seconds: usize, pauses: [f64; 2]) -> Shift {
    let mut rng = Rng(0x9e37_79b9_7f4a_7c15_u64.wrapping_mul(2 * seed + 1));
    (0..8).for_each(|_| _ = rng.draw());
    let n = seconds * RATE;
    // a stretch of noise, over and over: the grinder is slow to make
    let noise = grinder(20 * RATE, rng.draw() | 1, 50.0, between(&mut rng, 200.0, 350.0));
    let power = noise.iter().map(|x| x * x).sum::<f64>() / noise.len() as f64;
    let mut samples: Vec<f64> = (0..n).map(|i| noise[i % noise.len()] * GRINDER / power.sqrt()).collect();
    let (mut words, mut at) = (vec![], (between(&mut rng, 1.0, 3.0) * RATE as f64) as usize);
    loop {
        let voice = spoken::voice(&mut rng, true);
        if at + voice.len() + RATE > n {
            break;
        }
        samples[at..].iter_mut().zip(&voice).for_each(|(x, v)| *x += v);
        words.push([at, at + voice.len()]);
        at += voice.len() + (between(&mut rng, pauses[0], pauses[1]) * RATE as f64) as usize;
    }
    let samples = samples.iter().map(|x| x.round().clamp(-32_768.0, 32_767.0) as f32).collect();
    Shift { samples, words }
}

/// Both benches as a raw stream: left and right in turn, 16 bits, little end first.
pub fn stereo(left: &[f32], right: &[f32]) -> Vec<u8> {
    left.iter().zip(right).flat_map(|(l, r)| [*l as i16, *r as i16]).flat_map(i16::to_le_bytes).collect()
}
