//! `box dev lags`: how often our own lag (request 04) and the text's `PitchFinder` agree, and how often each is right.

use nnnoiseless_text::probe::pitch::PitchFinder;
use std::f64::consts::TAU;
use tuppencehop::cleaning::demo::{cleaned, dictation, effect, filtered, power, Rng};
use tuppencehop::cleaning::recorder::Way;
use tuppencehop::error::Result;
use tuppencehop::{FRAME, RATE};

/// `input_mem`: what the lag is searched in.
const INPUT_MEM: usize = 1_728;
/// Seeded voices to a row, and frames of each.
const VOICES: u64 = 50;
const FRAMES: usize = 100;

/// Both lags after each frame: ours and the text's.
fn both(samples: &[f32]) -> Vec<[f64; 2]> {
    let mut finder = PitchFinder::new();
    let mut heard = vec![0.0; INPUT_MEM];
    heard.extend(filtered(samples).iter().map(|x| *x as f32));
    (INPUT_MEM + FRAME..=heard.len())
        .step_by(FRAME)
        .map(|end| {
            let input_mem = &heard[end - INPUT_MEM..end];
            let mut ours = [0];
            assert_eq!(tuppence::lag(&mut ours, input_mem), 0);
            [f64::from(ours[0]), finder.process(input_mem).0 as f64]
        })
        .collect()
}

fn near(a: f64, b: f64) -> bool {
    (a - b).abs() <= 2.0
}

/// Near each other, or one of them near twice the other.
fn octave(a: f64, b: f64) -> bool {
    near(a, b) || near(a / 2.0, b) || near(a, b / 2.0)
}

/// Near each other, an octave apart, or the greater near a multiple of the smaller.
fn multiple(a: f64, b: f64) -> bool {
    let (long, short) = (a.max(b), a.min(b));
    octave(a, b) || near(long, short * (long / short).round())
}

/// How many percent of the pairs are near; or an octave apart besides; or a multiple besides.
fn agreement(pairs: &[[f64; 2]]) -> String {
    let percent = |test: fn(f64, f64) -> bool| {
        100.0 * pairs.iter().filter(|[a, b]| test(*a, *b)).count() as f64 / pairs.len().max(1) as f64
    };
    format!("{:.0}, {:.0}, {:.0} %", percent(near), percent(octave), percent(multiple))
}

/// A voice of this period in samples, with overtones up to 4 kHz of seeded phases, and noise so many decibels below it.
fn voice(rng: &mut Rng, period: f64, below: f64) -> Vec<f32> {
    let overtones: Vec<(f64, f64)> = (1..)
        .map(f64::from)
        .take_while(|k| k * f64::from(RATE) / period < 4_000.0)
        .map(|k| (k, rng.number()))
        .collect();
    let tone =
        |i: usize| overtones.iter().map(|(k, turn)| (TAU * (k * i as f64 / period + turn)).sin() / k).sum::<f64>();
    let clean: Vec<f64> = (0..FRAMES * FRAME).map(tone).collect();
    // numbers from -1 to 1 have the power 1/3
    let noise = (3.0 * power(&clean)).sqrt() / 10f64.powf(below / 20.0);
    clean.iter().map(|x| (3_000.0 * (x + noise * rng.number())) as f32).collect()
}

/// Voices of a pitch between two, in hertz: both lags and the true period at each frame that holds the voice alone.
fn seeded(pitch: [f64; 2], below: f64) -> Vec<([f64; 2], f64)> {
    (1..=VOICES)
        .flat_map(|seed| {
            let mut rng = Rng(0x9e37_79b9_7f4a_7c15_u64.wrapping_mul(seed));
            (0..8).for_each(|_| _ = rng.draw());
            let hertz = pitch[0] + (pitch[1] - pitch[0]) * (rng.number() + 1.0) / 2.0;
            let period = f64::from(RATE) / hertz;
            both(&voice(&mut rng, period, below)).into_iter().skip(4).map(move |pair| (pair, period))
        })
        .collect()
}

/// What either way makes of the demo.
fn effects() -> Result<()> {
    let dictations = [dictation(0), dictation(1)];
    tuppencehop::say!("\nthe demo, cleaned in either way:\n");
    tuppencehop::say!("| bench | `--lag` | noise in the pauses | voice | signal to noise, after |");
    tuppencehop::say!("|---|---|---|---|---|");
    for (name, way) in [("crate", Way::Nnnoiseless), ("own", Way::Own)] {
        for (bench, dictation) in cleaned(&dictations, way)?.iter().zip(&dictations) {
            let e = effect(dictation, &bench.after);
            tuppencehop::say!(
                "| {} | {name} | {:.2} dB | {:.2} dB | {:.2} dB |",
                bench.side.name(),
                e.pauses,
                e.voice,
                e.ratio[1]
            );
        }
    }
    Ok(())
}

pub fn lags() -> Result<()> {
    tuppencehop::say!("within 2 samples; or an octave apart; or one a multiple of the other:\n");
    tuppencehop::say!(
        "| voice | frames | ours and the text's | ours and the true period | the text's and the true period |"
    );
    tuppencehop::say!("|---|---|---|---|---|");
    for (bench, name) in ["left", "right"].into_iter().enumerate() {
        let demo = dictation(bench);
        let speaking: Vec<bool> = demo.voice.chunks_exact(FRAME).map(|frame| power(frame) > 1e4).collect();
        let alone: Vec<f32> = demo.voice.iter().map(|x| *x as f32).collect();
        for (how, samples) in [("alone", &alone), ("over its grinder", &demo.noisy)] {
            let pairs: Vec<_> =
                both(samples).into_iter().zip(&speaking).filter(|(_, on)| **on).map(|(p, _)| p).collect();
            tuppencehop::say!("| demo, {name}, {how} | {} | {} | – | – |", pairs.len(), agreement(&pairs));
        }
    }
    for (what, pitch) in
        [("65 to 130 Hz", [65.0, 130.0]), ("130 to 260 Hz", [130.0, 260.0]), ("270 to 400 Hz", [270.0, 400.0])]
    {
        for below in [60.0, 10.0, 0.0] {
            let all = seeded(pitch, below);
            let pairs: Vec<_> = all.iter().map(|(pair, _)| *pair).collect();
            let [ours, texts] =
                [0, 1].map(|i| agreement(&all.iter().map(|(pair, t)| [pair[i], *t]).collect::<Vec<_>>()));
            tuppencehop::say!(
                "| seeded, {what}, noise {below} dB below | {} | {} | {ours} | {texts} |",
                all.len(),
                agreement(&pairs)
            );
        }
    }
    effects()
}
