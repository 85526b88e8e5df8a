//! `PitchFinder::process`, against the text's own: frame after frame with what it remembers, and after numbers that no
//! finder wrote.

use crate::lag::voice;
use crate::rng::{Mood, Rng};
use crate::tally::{kept, signed, Given, Tally};
use crate::{values, Options};
use nnnoiseless_text::probe::pitch::PitchFinder;
use std::f32::consts::TAU;

/// The frames of a recording.
const FRAMES: usize = 24;

pub fn compare(options: &Options) -> Tally {
    let mut tally = Tally::new("finder");
    let rng = &mut Rng::new(options.seed);
    fixed(&mut tally);
    for _ in 0..options.calls(2000) {
        recording(&mut tally, rng);
    }
    for _ in 0..options.calls(2000) {
        forged(&mut tally, rng);
    }
    tally
}

/// Silence of either sign, NaN throughout, infinities, and loud ones whose squares overflow; after the numbers at the
/// edges of what may be kept.
fn fixed(tally: &mut Tally) {
    let edges =
        [0.0, -0.0, 0.5, 59.9, 60.0, 767.0, 767.9, 768.0, 768.5, 1e9, -1.0, f32::INFINITY, f32::NEG_INFINITY, f32::NAN];
    for x in [0.0, -0.0, 1.0, f32::NAN, f32::INFINITY, f32::NEG_INFINITY, 1.9e19, f32::MAX, f32::MIN] {
        for last in edges {
            find(tally, &[last, 0.9], &[7], &[x; 1728]);
        }
    }
}

/// A recording and what both sides remember of it.
fn recording(tally: &mut Tally, rng: &mut Rng) {
    let sound = sound(rng, 1728 + 480 * (FRAMES - 1));
    let (mut text, mut numbers) = (PitchFinder::new(), [0.0; 2]);
    for i in 0..FRAMES {
        let input_mem = &sound[480 * i..][..1728];
        let given = [("numbers", numbers.to_vec()), ("input_mem", input_mem.to_vec())];
        let given = given.each_ref().map(|(name, list)| (*name, list.into()));
        let given = Given::new(&given);
        let mut lag = [7];
        let number = tuppence::find(&mut numbers, &mut lag, input_mem);
        let (period, gain) = text.process(input_mem);
        let (due, wanted, place) = (0u32, [period as f32, gain], [period as u32]);
        tally.judge("find", given, values![number, numbers, lag], &[(&due).into(), signed(&wanted), (&place).into()]);
    }
}

/// Stretches of voices, high and wavering ones among them, noise and silence, some with special numbers; or numbers of
/// any one kind.
fn sound(rng: &mut Rng, len: usize) -> Vec<f32> {
    if rng.once_in(8) {
        return rng.list(len);
    }
    let mut sound = vec![];
    while sound.len() < len {
        let stretch = 200 + rng.below(3000);
        sound.extend(match rng.below(6) {
            0 => vec![0.0; stretch],
            1 => rng.list_of(stretch, Mood::Audio),
            2 => rng.list_of(stretch, Mood::Sprinkled),
            3 => wavering(rng, stretch),
            _ => voice(rng, stretch),
        });
    }
    sound.truncate(len);
    sound
}

/// A voice whose every other period is another, more and less so by turns: whether one period is found or two depends
/// on what was found last, in one frame of five.
fn wavering(rng: &mut Rng, len: usize) -> Vec<f32> {
    let (period, slow) = (70.0 + 250.0 * rng.unit(), 2000.0 + 4000.0 * rng.unit());
    let (loud, noise) = (300.0 + 6000.0 * rng.unit(), rng.pick(&[0.0, 0.01, 0.1]));
    let angle = |i: usize, period: f32| TAU * (i as f32 / period).fract();
    let tone = |i: usize, period: f32| (1..6).map(|k| angle(i, period / k as f32).sin() / k as f32).sum::<f32>();
    let sample = |i: usize| {
        let other = 0.5 + 0.25 * angle(i, slow).sin();
        loud * ((1.0 - other) * tone(i, period) + other * tone(i, 2.0 * period) + noise * rng.of(Mood::Small))
    };
    (0..len).map(sample).collect()
}

/// What a recorder gives of a sound, or of one voice that wavers.
pub fn recorded(rng: &mut Rng, len: usize) -> Vec<f32> {
    let sound = if rng.once_in(2) { wavering(rng, len) } else { sound(rng, len) };
    sound.into_iter().map(|x| if x.is_nan() { 0.0 } else { x.clamp(-32_768.0, 32_767.0) }).collect()
}

/// Any numbers, lengths around those that fit.
fn forged(tally: &mut Tally, rng: &mut Rng) {
    let len = rng.near(2);
    let mut numbers = rng.list(len);
    for number in &mut numbers {
        *number = match rng.below(4) {
            0 => rng.float(),
            1 => rng.unit(),
            _ => 800.0 * rng.unit(),
        };
    }
    let places: Vec<u32> = (0..rng.near(1)).map(|_| rng.bits() as u32).collect();
    let len = rng.near(1728);
    let input_mem = if rng.once_in(2) { voice(rng, len) } else { rng.list(len) };
    find(tally, &numbers, &places, &input_mem);
}

/// The largest whole number of 0 to 768 that is not above x, 0 where there is none.
pub(crate) fn whole(x: f32) -> usize {
    (0..=768).rev().find(|k| *k as f32 <= x).unwrap_or(0)
}

fn find(tally: &mut Tally, numbers: &[f32], places: &[u32], input_mem: &[f32]) {
    let given = [("numbers", numbers.into()), ("places", places.into()), ("input_mem", input_mem.into())];
    let given = Given::new(&given);
    let (mut ours, mut lag) = (numbers.to_vec(), places.to_vec());
    let number = tuppence::find(&mut ours, &mut lag, input_mem);
    if numbers.len() == 2 && places.len() == 1 && input_mem.len() == 1728 {
        let (period, gain) = PitchFinder::after(whole(numbers[0]), numbers[1]).process(input_mem);
        let (due, wanted, place) = (0u32, [period as f32, gain], [period as u32]);
        tally.judge("find", given, values![number, ours, lag], &[(&due).into(), signed(&wanted), (&place).into()]);
    } else {
        tally.judge("find", given, values![number, ours, lag], &[(&5u32).into(), kept(numbers), places.into()]);
    }
}
