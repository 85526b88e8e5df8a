//! `box demo`: two short dictations over a grinder, cleaned with the house model.

use crate::cleaning::cleaned::Cleaned;
use crate::cleaning::pauses::HIGH_PASS;
use crate::cleaning::recorder::Way;
use crate::cleaning::run::{in_memory, Sink};
use crate::error::Result;
use crate::page::about::About;
use crate::reading::block::packed;
use crate::reading::wav;
use crate::recording::files::{before, Files, Place};
use crate::{FRAME, RATE};
use std::f64::consts::TAU;
use std::path::Path;

/// The house model (model/train/README.md).
pub const HOUSE: &[u8] = include_bytes!("../../model/house.rnn");
/// What the house model is called.
pub const HOUSE_NAME: &str = "house.rnn";
/// The voices (demo/README.md).
const VOICES: [&[u8]; 2] = [include_bytes!("../../demo/left.wav"), include_bytes!("../../demo/right.wav")];
/// Seconds of grinder before the voice and behind it.
const LEAD: f64 = 1.5;
const TAIL: f64 = 1.0;
/// The voice's level, and how far below it the grinder is.
const LEVEL: f64 = 3_000.0;
const BELOW: f64 = 5.0;

/// A small generator of numbers, the same for the same seed.
pub struct Rng(pub u64);

impl Rng {
    pub fn draw(&mut self) -> u64 {
        self.0 ^= self.0 << 13;
        self.0 ^= self.0 >> 7;
        self.0 ^= self.0 << 17;
        self.0
    }

    /// From -1 to 1.
    pub fn number(&mut self) -> f64 {
        (self.draw() >> 11) as f64 / (1u64 << 52) as f64 - 1.0
    }
}

pub fn power(samples: &[f64]) -> f64 {
    samples.iter().map(|x| x * x).sum::<f64>() / samples.len().max(1) as f64
}

/// A voice of 16 kHz at 48 kHz: a windowed sinc between its samples.
fn upsampled(voice: &[f32]) -> Vec<f64> {
    const REACH: isize = 16;
    let tap = |t: f64| {
        let x = t * TAU / 2.0;
        let sinc = if t == 0.0 { 1.0 } else { x.sin() / x };
        sinc * (0.5 + 0.5 * (t * TAU / 2.0 / REACH as f64).cos())
    };
    (0..3 * voice.len() as isize)
        .map(|i| {
            (i / 3 - REACH + 1..=i / 3 + REACH)
                .filter_map(|k| Some(f64::from(*voice.get(usize::try_from(k).ok()?)?) * tap(i as f64 / 3.0 - k as f64)))
                .sum()
        })
        .collect()
}

/// A broadband rush, mains hum, and a motor's whine whose speed wanders, swelling slowly.
pub fn grinder(n: usize, seed: u64, hum: f64, whine: f64) -> Vec<f64> {
    let mut rng = Rng(seed);
    let mut poles = [0.0; 3];
    let mut phase = 0.0;
    (0..n)
        .map(|i| {
            let t = i as f64 / f64::from(RATE);
            let white = rng.number();
            for (pole, keep) in poles.iter_mut().zip([0.6, 0.9, 0.98]) {
                *pole = keep * *pole + (1.0 - keep) * white;
            }
            let rush = 0.3 * white + 2.0 * poles[0] + 3.0 * poles[1] + 5.0 * poles[2];
            phase += whine * (1.0 + 0.03 * (TAU * 0.23 * t).sin()) / f64::from(RATE);
            let tones: f64 = (1..=8)
                .map(f64::from)
                .map(|k| ((TAU * hum * k * t + k).sin() + (TAU * phase * k + 2.0 * k).sin()) * 0.25 / k)
                .sum();
            (rush + tones) * 10f64.powf(0.15 * (TAU * 0.31 * t).sin())
        })
        .collect()
}

/// One bench's dictation: the voice alone, and over its grinder.
pub struct Dictation {
    pub voice: Vec<f64>,
    pub noisy: Vec<f32>,
}

pub fn dictation(bench: usize) -> Dictation {
    let voice = wav::read(VOICES[bench]).expect("the demo's voice").channels.remove(0);
    let pause = |seconds: f64| vec![0.0; (seconds * f64::from(RATE)) as usize];
    let mut clean = [pause(LEAD), upsampled(&voice), pause(TAIL)].concat();
    let loud: Vec<f64> = clean.chunks(FRAME).filter(|c| power(c) > 1e4).flatten().copied().collect();
    let scale = LEVEL / power(&loud).sqrt();
    clean.iter_mut().for_each(|x| *x *= scale);
    let (hum, whine) = [(100.0, 340.0), (50.0, 210.0)][bench];
    let noise = grinder(clean.len(), 0x5eed_0001 + bench as u64, hum, whine);
    let level = LEVEL / 10f64.powf(BELOW / 20.0) / power(&noise).sqrt();
    let noisy =
        clean.iter().zip(noise).map(|(x, v)| (x + level * v).round().clamp(-32_768.0, 32_767.0) as f32).collect();
    Dictation { voice: clean, noisy }
}

/// Seeded noise, the demo's voice now and then, and stretches of silence.
pub fn minutes(minutes: usize, bench: usize) -> Vec<f32> {
    let n = minutes * 60 * RATE as usize;
    let (voice, mut rng) = (dictation(bench).voice, Rng(99 + bench as u64));
    let mut samples: Vec<f32> = grinder(n, 11 + bench as u64, 60.0, 280.0).iter().map(|x| (900.0 * x) as f32).collect();
    let mut at = 0;
    while at < n {
        let (kind, length) = (rng.draw() % 4, (RATE as u64 + rng.draw() % (4 * RATE as u64)) as usize);
        for (x, i) in samples[at..n.min(at + length)].iter_mut().zip(0..) {
            match kind {
                0 => *x = 0.0,
                1 | 2 => *x += voice[i % voice.len()] as f32,
                _ => {}
            }
        }
        at += length;
    }
    samples
}

/// Decibels.
fn db(ratio: f64) -> f64 {
    10.0 * ratio.log10()
}

/// What the cleaning did, in decibels; the first 1.5 seconds, in which a model may be looking for the noise floor, do
/// not count.
pub struct Effect {
    pub pauses: f64,
    pub voice: f64,
    pub ratio: [f64; 2],
}

/// The samples through the library's high-pass filter, which the box puts in front of everything.
pub fn filtered(samples: &[f32]) -> Vec<f64> {
    let mut out = vec![0.0; samples.len()];
    assert_eq!(tuppence::filter(&mut out, &mut [0.0; 2], &HIGH_PASS, samples), 0);
    out.into_iter().map(f64::from).collect()
}

pub fn effect(dictation: &Dictation, after: &[f32]) -> Effect {
    let voice = filtered(&dictation.voice.iter().map(|x| *x as f32).collect::<Vec<_>>());
    let before = filtered(&dictation.noisy);
    let after: Vec<f64> = after.iter().map(|x| f64::from(*x)).collect();
    let frames = |speaking: bool, of: &[f64]| -> Vec<f64> {
        let first = (LEAD * f64::from(RATE)) as usize / FRAME;
        let kept = of.chunks(FRAME).zip(voice.chunks(FRAME)).skip(first);
        kept.filter(|(_, v)| (power(v) > 1e4) == speaking).flat_map(|(c, _)| c.to_vec()).collect()
    };
    let less = |a: &[f64], b: &[f64]| a.iter().zip(b).map(|(a, b)| a - b).collect::<Vec<f64>>();
    let ratio = |of: &[f64]| {
        let voice = frames(true, &voice);
        db(power(&voice) / power(&less(&frames(true, of), &voice)))
    };
    Effect {
        pauses: db(power(&frames(false, &after)) / power(&frames(false, &before))),
        voice: db(power(&frames(true, &after)) / power(&frames(true, &voice))),
        ratio: [ratio(&before), ratio(&after)],
    }
}

/// Both dictations, cleaned with the house model.
pub fn cleaned(dictations: &[Dictation; 2], way: Way) -> Result<[Cleaned; 2]> {
    let [left, right] = dictations;
    in_memory([&left.noisy, &right.noisy], HOUSE, way)
}

/// Writes both recordings, before and after, and all that `box clean` writes.
fn store([left, right]: &[Cleaned; 2], out: &Path, force: bool, csv: bool) -> Result<()> {
    let names = [left, right].map(|bench| before(bench.side));
    let mut files = Files::new(&Place { out, prefix: "", more: &names, force, once: false, csv })?;
    files.frames(&[left.frames.clone(), right.frames.clone()])?;
    for (bench, name) in [left, right].into_iter().zip(&names) {
        files.about(bench.side, About::stream(name, HOUSE_NAME.as_ref()));
        files.add(name, &wav::write(RATE, &bench.before))?;
        files.before(bench.side, &bench.before)?;
        files.after(bench.side, &packed(&bench.after))?;
    }
    files.keep(Some([&names[0], &names[1]])).map(|_| ())
}

/// Makes the dictations, cleans them, and writes both into the folder.
pub fn demo(out: &Path, way: Way, force: bool, csv: bool) -> Result<()> {
    let dictations = [dictation(0), dictation(1)];
    let benches = cleaned(&dictations, way)?;
    store(&benches, out, force, csv)?;
    for (bench, dictation) in benches.iter().zip(&dictations) {
        let e = effect(dictation, &bench.after);
        crate::say!(
            "{:5}  pauses {:+.1} dB, voice {:+.1} dB, signal to noise {:.1} dB before and {:.1} dB after",
            bench.side.name(),
            e.pauses,
            e.voice,
            e.ratio[0],
            e.ratio[1]
        );
    }
    Ok(())
}
