//! Recordings whose first word begins at a known second: a voice over noise. The voice is synthesised here, or it is
//! one of the demo's, played faster or slower. Everything follows from a seed.
#![allow(dead_code)]

use std::f64::consts::TAU;
use tuppencehop::cleaning::demo::{dictation, grinder, power, Rng};

const RATE: f64 = 48_000.0;
/// The root mean square of a voice while it speaks.
const LEVEL: f64 = 3_000.0;

/// A number between two.
fn between(rng: &mut Rng, from: f64, to: f64) -> f64 {
    from + (to - from) * (rng.number() + 1.0) / 2.0
}

/// One of these.
fn one_of<T: Copy>(rng: &mut Rng, of: &[T]) -> T {
    of[(rng.draw() >> 20) as usize % of.len()]
}

/// A resonance of this frequency and width, in hertz.
struct Resonance {
    last: [f64; 2],
}

impl Resonance {
    fn next(&mut self, x: f64, hertz: f64, wide: f64) -> f64 {
        let r = (-TAU / 2.0 * wide / RATE).exp();
        let turn = 2.0 * r * (TAU * hertz / RATE).cos();
        let gain = 1.0 - turn + r * r;
        let y = gain * x + turn * self.last[0] - r * r * self.last[1];
        self.last = [y, self.last[0]];
        y
    }
}

/// The three lowest resonances of the throat for some vowels, in hertz.
const VOWELS: [[f64; 3]; 6] = [
    [730.0, 1_090.0, 2_440.0],
    [530.0, 1_840.0, 2_480.0],
    [270.0, 2_290.0, 3_010.0],
    [570.0, 840.0, 2_410.0],
    [300.0, 870.0, 2_240.0],
    [490.0, 1_350.0, 1_690.0],
];
/// And while it says l, m and r.
const ONSETS: [[f64; 3]; 3] = [[360.0, 1_300.0, 2_700.0], [250.0, 1_200.0, 2_100.0], [350.0, 1_060.0, 1_380.0]];

/// A word of this many syllables, each from an l, m or r to a vowel, at a pitch that falls.
fn word(rng: &mut Rng, syllables: usize, pitch: f64) -> Vec<f64> {
    let (mut throat, mut phase, mut said) = ([(); 3].map(|_| Resonance { last: [0.0; 2] }), 0.0, vec![]);
    for syllable in 0..syllables {
        let (onset, vowel) = (one_of(rng, &ONSETS), one_of(rng, &VOWELS));
        let length = (between(rng, 0.16, 0.28) * RATE) as usize;
        for i in 0..length {
            let part = i as f64 / length as f64;
            let hertz =
                pitch * (1.1 - 0.15 * (syllable as f64 + part) / syllables as f64) * (1.0 + 0.01 * rng.number());
            phase = (phase + hertz / RATE) % 1.0;
            // the folds open for the most of a beat and close at once
            let pulse = if phase < 0.6 { (TAU * phase / 1.2).sin().powi(2) } else { 0.0 } - 0.3;
            let breath = 0.05 * rng.number();
            let shift = (part * 3.0).min(1.0);
            let loud = (part * 12.0).min(1.0) * ((1.0 - part) * 6.0).min(1.0) * (0.5 + 0.5 * shift);
            let mut x = loud * (pulse + breath);
            let mut y = 0.0;
            for (k, one) in throat.iter_mut().enumerate() {
                let at = onset[k] + (vowel[k] - onset[k]) * shift;
                x = one.next(x, at, 60.0 + 40.0 * k as f64) + 0.3 * x;
                y += x / (k + 1) as f64;
            }
            said.push(y);
        }
        said.extend(vec![0.0; (between(rng, 0.0, 0.05) * RATE) as usize]);
    }
    said
}

/// A few words, with pauses between them.
fn made(rng: &mut Rng) -> Vec<f64> {
    let pitch = between(rng, 90.0, 230.0);
    let mut said = vec![];
    for _ in 0..4 {
        let syllables = 1 + (rng.draw() >> 20) as usize % 3;
        said.extend(word(rng, syllables, pitch));
        said.extend(vec![0.0; (between(rng, 0.08, 0.3) * RATE) as usize]);
    }
    said
}

/// One of the demo's voices, played faster or slower.
fn spoken(rng: &mut Rng) -> Vec<f64> {
    let voice = dictation(one_of(rng, &[0, 1])).voice;
    let speed = between(rng, 0.85, 1.2);
    let length = ((voice.len() - 1) as f64 / speed) as usize;
    let sample = |at: f64| voice[at as usize] * (1.0 - at.fract()) + voice[at as usize + 1] * at.fract();
    (0..length).map(|i| sample(i as f64 * speed)).collect()
}

/// The kinds of noise.
pub const NOISES: [&str; 4] = ["white", "pink", "brown", "grinder"];

/// Noise of one of these kinds.
fn noise(rng: &mut Rng, kind: usize, length: usize) -> Vec<f64> {
    let white: Vec<f64> = (0..length).map(|_| rng.number()).collect();
    match NOISES[kind] {
        "white" => white,
        "pink" => pink(&white),
        "brown" => brown(&white),
        _ => grinder(length, rng.draw() | 1, one_of(rng, &[50.0, 100.0]), between(rng, 180.0, 400.0)),
    }
}

/// White noise through three poles that fall by 3 dB an octave together.
fn pink(white: &[f64]) -> Vec<f64> {
    let mut poles = [0.0; 3];
    let next = |x: &f64| {
        for (pole, (keep, gain)) in poles.iter_mut().zip([(0.99765, 0.099), (0.963, 0.2965), (0.57, 1.0527)]) {
            *pole = keep * *pole + gain * x;
        }
        poles.iter().sum::<f64>() + 0.1848 * x
    };
    white.iter().map(next).collect()
}

/// White noise through one pole that falls by 6 dB an octave.
fn brown(white: &[f64]) -> Vec<f64> {
    let mut pole = 0.0;
    let next = |x: &f64| {
        pole = 0.998 * pole + x;
        pole
    };
    white.iter().map(next).collect()
}

/// As 16 bits have them.
fn rounded(samples: &[f64]) -> Vec<f32> {
    samples.iter().map(|x| x.round().clamp(-32_768.0, 32_767.0) as f32).collect()
}

/// A generator for a seed; its first numbers are too much alike.
fn seeded(seed: u64) -> Rng {
    let mut rng = Rng(0x9e37_79b9_7f4a_7c15_u64.wrapping_mul(seed + 1));
    (0..8).for_each(|_| _ = rng.draw());
    rng
}

/// Noise alone, of this kind and this root mean square, for so many seconds.
pub fn noise_alone(seed: u64, kind: usize, level: f64, seconds: usize) -> Vec<f32> {
    let noise = noise(&mut seeded(seed), kind, seconds * RATE as usize);
    let scale = level / power(&noise).sqrt();
    rounded(&noise.iter().map(|x| scale * x).collect::<Vec<_>>())
}

/// A recording, and the second at which its first word begins.
pub struct Spoken {
    pub samples: Vec<f32>,
    pub first_word: f64,
}

/// A voice without the silence before its first word, as loud as `LEVEL` while it speaks.
pub fn voice(rng: &mut Rng, is_made: bool) -> Vec<f64> {
    let voice = if is_made { made(rng) } else { spoken(rng) };
    // the word begins with the first sample that is less than 40 dB softer than the loudest
    let loudest = voice.iter().fold(0.0f64, |most, x| most.max(x.abs()));
    let begins = voice.iter().position(|x| x.abs() > loudest / 100.0).unwrap();
    let voice = &voice[begins..];
    let loud: Vec<f64> = voice.chunks(480).filter(|c| power(c) > power(voice) / 10.0).flatten().copied().collect();
    let scale = LEVEL / power(&loud).sqrt();
    voice.iter().map(|x| scale * x).collect()
}

/// The recording of a seed. Its noise is 5 to 20 dB below the voice. The first word begins after `lead` seconds, or
/// after 0.5 to 4 if none are given.
pub fn recording(seed: u64, lead: Option<f64>) -> Spoken {
    let mut rng = seeded(seed);
    let voice = voice(&mut rng, seed.is_multiple_of(2));
    let lead = (lead.unwrap_or(between(&mut rng, 0.5, 4.0)) * RATE) as usize;
    let below = between(&mut rng, 5.0, 20.0);
    let noise = noise(&mut rng, seed as usize / 2 % 4, lead + voice.len() + 48_000);
    let level = LEVEL / 10f64.powf(below / 20.0) / power(&noise).sqrt();
    let mut samples: Vec<f64> = noise.iter().map(|x| level * x).collect();
    samples[lead..].iter_mut().zip(voice).for_each(|(x, v)| *x += v);
    Spoken { samples: rounded(&samples), first_word: lead as f64 / RATE }
}
