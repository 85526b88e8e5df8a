//! The house model: it reads, and on the demo it takes the noise and leaves the voice. (The gate looks at its checksum
//! besides.)

use tuppencehop::cleaning::demo::{cleaned, dictation, effect, HOUSE};
use tuppencehop::cleaning::recorder::Way;
use tuppencehop::models::layers::Layers;

#[test]
fn it_has_the_usual_shape() {
    assert_eq!(HOUSE.len(), 87_521);
    let shapes = Layers::of(HOUSE).unwrap().shapes;
    assert_eq!(shapes, [42, 24, 0, 24, 24, 0, 90, 48, 2, 114, 96, 0, 96, 22, 1, 24, 1, 1]);
}

#[test]
fn on_the_demo_the_pauses_fall_by_15_decibels_and_the_voice_by_at_most_one_and_a_half() {
    let dictations = [dictation(0), dictation(1)];
    for way in [Way::Nnnoiseless, Way::Own] {
        for (bench, dictation) in cleaned(&dictations, way).unwrap().iter().zip(&dictations) {
            let effect = effect(dictation, &bench.after);
            let (pauses, voice, [before, after]) = (effect.pauses, effect.voice, effect.ratio);
            assert!(pauses <= -15.0 && voice >= -1.5, "{}: {pauses:.2}, {voice:.2}", bench.side.name());
            assert!(after > before + 3.0, "{}: {before:.2} to {after:.2}", bench.side.name());
        }
    }
}
