//! Request 04: our own lag, against the text's own leaves joined as the request says.

use crate::rng::{Mood, Rng};
use crate::tally::{Given, Tally};
use crate::{values, Options};
use nnnoiseless_text::probe::pitch;

/// The text's leaves, joined.
pub fn joined(input_mem: &[f32]) -> u32 {
    let (mut low, mut xcorr) = ([0.0; 864], [0.0; 294]);
    pitch::pitch_downsample(input_mem, &mut low);
    pitch::pitch_xcorr(&low[384..], &low, &mut xcorr);
    let (first, _) = pitch::find_best_pitch(&xcorr, &low, 480);
    768 - 2 * first as u32
}

pub fn compare(options: &Options) -> Tally {
    let mut tally = Tally::new("lag");
    let rng = &mut Rng::new(options.seed);
    // silence of either sign, NaN throughout, and a loud one whose squares overflow
    for x in [0.0, -0.0, f32::NAN, f32::MAX] {
        lag(&mut tally, &[7], &[x; 1728]);
    }
    for _ in 0..options.calls(2000) {
        let places: Vec<u32> = (0..rng.near(1)).map(|_| rng.bits() as u32).collect();
        let len = rng.near(1728);
        let input_mem = if rng.once_in(2) { voice(rng, len) } else { rng.list(len) };
        lag(&mut tally, &places, &input_mem);
    }
    tally
}

/// A tone of some period and its overtones, over noise; now and then with a special number in it.
pub(crate) fn voice(rng: &mut Rng, len: usize) -> Vec<f32> {
    let period = 40.0 + 800.0 * rng.unit();
    let (loud, noise) = (30.0 + 8000.0 * rng.unit(), rng.pick(&[0.0, 0.01, 0.1, 1.0]));
    let tone =
        |i: usize| (1..6).map(|k| (std::f32::consts::TAU * (k * i) as f32 / period).sin() / k as f32).sum::<f32>();
    let mut list: Vec<f32> = (0..len).map(|i| loud * (tone(i) + noise * rng.of(Mood::Small))).collect();
    if len > 0 && rng.once_in(8) {
        list[rng.below(len)] = rng.special();
    }
    list
}

fn lag(tally: &mut Tally, places: &[u32], input_mem: &[f32]) {
    let (mut ours, mut want) = (places.to_vec(), places.to_vec());
    let given = [("places", places.into()), ("input_mem", input_mem.into())];
    let given = Given::new(&given);
    let (number, mut due) = (tuppence::lag(&mut ours, input_mem), 5u32);
    if places.len() == 1 && input_mem.len() == 1728 {
        want[0] = joined(input_mem);
        due = 0;
    }
    tally.judge("lag", given, values![number, ours], values![due, want]);
}
