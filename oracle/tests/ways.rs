//! A bench of the crate's way beside the crate: its frames in one call, and the text's own `process_frame`, which finds
//! the lag by its own finder, over the same fast transforms and the nearest logarithms.

use nnnoiseless_text::probe::pitch::PitchFinder;
use nnnoiseless_text::{feed, DenoiseState, RnnModel};
use oracle::ask::{Ask, FRAME};
use oracle::beside::TEXT;
use oracle::desk::{share_of, Way, BENCHES, FINDER_MEM, INPUT_MEM, RECORD, STORE};
use oracle::fft::{fast_forward, fast_inverse};
use oracle::rng::Rng;
use oracle::surface::{Surface, OURS};
use oracle::tally::alike;
use oracle::transforms::cosines;
use oracle::{finder, logs, models};

const RECORDINGS: usize = 60;
const FRAMES: usize = 50;

fn nearest(x: f32) -> f32 {
    let mut out = [0.0; 22];
    assert_eq!(logs::nearest(&mut out, &[x; 22]), 0);
    out[0]
}

/// `process_frame`: the samples, and the voice.
fn processed(text: &mut DenoiseState, samples: &[f32]) -> ([f32; 480], f32) {
    feed::install(feed::Functions {
        forward: Box::new(|window, spectrum| fast_forward(&cosines(), spectrum, window)),
        inverse: Box::new(|spectrum, window| fast_inverse(&cosines(), window, spectrum)),
        log10: nearest,
    });
    let mut out = [0.0; 480];
    let voice = text.process_frame(&mut out, samples);
    (out, voice)
}

/// Recordings on any benches of one store, each from its opening on: every sample, the voice, and what the finder
/// remembers.
fn beside_process_frame(desk: &Surface, seed: u64) {
    let rng = &mut Rng::new(seed);
    let (mut store, mut heard) = (rng.list(STORE), 0);
    for _ in 0..RECORDINGS {
        let (side, shape) = (rng.below(BENCHES) as u32, models::shape(rng));
        let (model, mut record, mut finder) = (models::of_shape(rng, shape), [0; RECORD], PitchFinder::new());
        let mut text = DenoiseState::from_model(RnnModel::from_bytes(&model).unwrap());
        assert_eq!(desk.opening(Way::Nnnoiseless)(&mut record, &mut store, side, &model), 0);
        let held = vec![vec![7.5; 480], vec![7.5; 3]];
        let mut ask = Ask { call: FRAME, side, model, held, ..Ask::default() };
        for samples in finder::recorded(rng, 480 * FRAMES).chunks_exact(480) {
            ask.given = vec![samples.to_vec()];
            let (number, lent) = ask.put(desk, &mut record, &mut store);
            let (out, voice) = processed(&mut text, samples);
            assert_eq!(number, 0);
            assert!(lent[0].iter().zip(out).all(|(a, b)| alike(*a, b)), "other samples");
            assert!(alike(lent[1][1], voice), "the voice {}, not {voice}", lent[1][1]);
            let share = share_of(&mut store, side);
            let (period, gain) = finder.process(&share[INPUT_MEM]);
            assert_eq!(share[FINDER_MEM][0], period as f32);
            assert!(alike(share[FINDER_MEM][1], gain), "the gain {}, not {gain}", share[FINDER_MEM][1]);
            heard += lent[1][0] as usize;
        }
    }
    assert!((RECORDINGS * FRAMES / 2..RECORDINGS * FRAMES).contains(&heard), "{heard} frames are heard");
}

#[test]
fn the_reference_is_the_text() {
    beside_process_frame(&TEXT, 11);
}

#[test]
fn the_library_is_the_text() {
    beside_process_frame(&OURS, 12);
}
