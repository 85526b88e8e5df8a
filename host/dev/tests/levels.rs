//! How loud the features hear a recording: nnnoiseless divides its forward transform by 480, where RNNoise divides by
//! 960 (docs/DIFFERENCES.md). The smallest input that shows it is one sample among zeros: whether its frame is silent.

#[path = "../../tests/models/mod.rs"]
mod models;

use tuppencehop::cleaning::demo::filtered;
use tuppencehop::cleaning::recorder::{Heard, Recorder, Side, Way};
use tuppencehop::reading::block::Block;
use tuppencehop::FRAME;
use tuppencehop_dev::reference::Reference;
use tuppencehop_dev::transform::{Transform, SPECTRUM, WINDOW};

/// A frame that begins with this sample and has no other.
fn frame(sample: f32) -> [f32; FRAME] {
    let mut samples = [0.0; FRAME];
    samples[0] = sample;
    samples
}

/// The energy of that frame as the first, or none where it is silent.
fn energy(way: Way, sample: f32) -> Option<f32> {
    let (mut recorder, model, mut found) = (Recorder::new(way), models::model(), None);
    recorder.open(Side::Left, &model).unwrap();
    let each = |frame: tuppencehop::cleaning::recorder::Frame, _: &[u8]| {
        if let Heard::Voice { energy, .. } = frame.heard {
            found = Some(energy);
        }
    };
    recorder.feed(Side::Left, &Block::of(&frame(sample)), &model, each).unwrap();
    found
}

/// The bands' energy together, where the transform is divided by so much: the bands overlap so that each bin counts
/// once, but that half a band stands twice at either end.
fn divided_by(by: f64, sample: f32) -> f64 {
    let (mut window, mut spectrum) = ([0.0; WINDOW], [0.0; SPECTRUM]);
    for (i, (to, x)) in window[FRAME..].iter_mut().zip(filtered(&frame(sample))).enumerate() {
        let turn = |x: f64| (0.5 * std::f64::consts::PI * x).sin();
        let fade = turn(((FRAME - 1 - i) as f64 + 0.5) / FRAME as f64);
        *to = (x * turn(fade * fade)) as f32;
    }
    Transform::default().forward(&window, &mut spectrum);
    let bin = |k: usize| {
        let [re, im] = if k == 0 { [spectrum[0], 0.0] } else { [spectrum[2 * k - 1], spectrum[2 * k]] };
        (f64::from(re).powi(2) + f64::from(im).powi(2)) / (by * by)
    };
    let all: f64 = (0..400).map(bin).sum();
    let first: f64 = (0..4).map(|k| (1.0 - k as f64 / 4.0) * bin(k)).sum();
    let last: f64 = (0..88).map(|k| k as f64 / 88.0 * bin(312 + k)).sum();
    all + first + last
}

#[test]
fn a_sample_of_5_is_heard_and_for_rnnoise_one_of_10() {
    for way in [Way::Nnnoiseless, Way::Own] {
        assert_eq!((energy(way, 4.0), energy(way, 5.0).is_some()), (None, true));
        let ours = f64::from(energy(way, 5.0).unwrap());
        assert!((ours / divided_by(480.0, 5.0) - 1.0).abs() < 1e-4, "{ours}");
        // RNNoise's 960 is our 480 with half the sample
        assert!((divided_by(960.0, 5.0) / divided_by(480.0, 2.5) - 1.0).abs() < 1e-4);
        assert_eq!((energy(way, 9.0 / 2.0), energy(way, 10.0 / 2.0)), (None, energy(way, 5.0)));
    }
    let mut out = [0.0; FRAME];
    let text = |sample: f32, out: &mut [f32]| Reference::new(&models::model()).unwrap().frame(&frame(sample), out);
    assert!(text(4.0, &mut out) == 0.0 && text(5.0, &mut out) > 0.0);
}
