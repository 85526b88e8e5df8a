//! `box dev text`: how far a recording, as the box cleans it, is from what the Rust text's `process_frame` gives. The
//! finder is the same; transforms and logarithms differ in their last bits.

use crate::reference::Reference;
use tuppencehop::cleaning::demo::{dictation, minutes, HOUSE};
use tuppencehop::cleaning::recorder::{Heard, Side, Way, RECORD, STORE};
use tuppencehop::FRAME;

/// How far one cleaning of a recording is from the text's.
#[derive(Debug, Default)]
pub struct Distance {
    pub frames: usize,
    /// The largest difference of a sample, whose unit is that of 16 bits.
    pub most: f32,
    /// The samples that differ where they are rounded to 16 bits.
    pub rounded: usize,
    /// The largest difference of a voice's probability.
    pub voice: f32,
    /// The power of the text's samples, and of the differences.
    powers: [f64; 2],
}

impl Distance {
    /// How many decibels the differences lie below what the text gives.
    pub fn below(&self) -> f64 {
        10.0 * (self.powers[0] / self.powers[1]).log10()
    }

    fn add(&mut self, ours: &[f32], texts: &[f32], voices: [f32; 2]) {
        self.frames += 1;
        self.voice = self.voice.max((voices[0] - voices[1]).abs());
        for (a, b) in ours.iter().zip(texts) {
            let apart = a - b;
            assert!(apart.is_finite(), "{a} and {b}");
            self.most = self.most.max(apart.abs());
            self.rounded += usize::from(a.round() != b.round());
            let square = |x: f32| f64::from(x) * f64::from(x);
            self.powers = [self.powers[0] + square(*b), self.powers[1] + square(apart)];
        }
    }
}

/// A bench of this way, a frame in each call, beside the text.
pub fn beside_text(recording: &[f32], model: &[u8], way: Way) -> Distance {
    let (mut record, mut store, mut distance) = ([0; RECORD], vec![0.0; STORE], Distance::default());
    way.open(&mut record, &mut store, 0, model).expect("a model that the library reads");
    let mut reference = Reference::new(model).expect("a model that the text reads");
    for samples in recording.chunks_exact(FRAME) {
        let ([mut ours, mut texts], mut answer) = ([[0.0; FRAME]; 2], [0.0; 3]);
        let refused = tuppence::frame(&mut record, &mut store, 0, samples, model, &mut ours, &mut answer);
        assert_eq!(refused, 0, "a frame is due and fits");
        let voice = reference.frame(samples, &mut texts);
        distance.add(&ours, &texts, [Heard::of(answer).voice(), voice]);
    }
    distance
}

pub fn tell_distances() {
    tuppencehop::say!(
        "| recording | `--lag` | frames | largest difference of a sample | all differences, below the sound | \
         largest difference of a voice's probability | samples that differ in 16 bits |"
    );
    tuppencehop::say!("|---|---|---|---|---|---|---|");
    for (bench, side) in Side::BOTH.into_iter().enumerate() {
        let rows = [
            ("the demo", "crate", Way::Nnnoiseless, dictation(bench).noisy),
            ("ten minutes", "crate", Way::Nnnoiseless, minutes(10, bench)),
            ("the demo", "own", Way::Own, dictation(bench).noisy),
        ];
        for (what, lag, way, recording) in rows {
            let distance = beside_text(&recording, HOUSE, way);
            let Distance { frames, most, rounded, voice, .. } = distance;
            let (side, below, samples) = (side.name(), distance.below(), FRAME * frames);
            tuppencehop::say!(
                "| {what}, {side} | {lag} | {frames} | {most:.5} | {below:.1} dB | {voice:.7} | {rounded} of \
                 {samples} |"
            );
        }
    }
}
