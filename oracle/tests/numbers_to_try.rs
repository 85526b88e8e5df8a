//! The numbers to try of document 01 that have no star, one test for each line, through the library and beside the Rust
//! text. The starred ones are computed from the definitions (crates/starred). docs/PROMISES.md has the list.

use nnnoiseless_text::probe::{pitch, rnn};
use nnnoiseless_text::RnnModel;

/// A model file with all weights and biases 0, from its six headers: inputs, neurons and activation.
fn zeros(headers: [[usize; 3]; 6]) -> Vec<u8> {
    let layers = headers.into_iter().enumerate().flat_map(|(layer, [inputs, neurons, activation])| {
        let numbers = match layer {
            1..=3 => 3 * inputs * neurons + 3 * neurons * neurons + 3 * neurons,
            _ => inputs * neurons + neurons,
        };
        [vec![inputs as u8, neurons as u8, activation as u8], vec![0; numbers]].concat()
    });
    layers.collect()
}

/// The headers of a model with these neurons in layers 0 to 3, and the activations of the listing in document 01.
fn headers([dense, vad, noise, denoise]: [usize; 4]) -> [[usize; 3]; 6] {
    let (to_noise, to_denoise) = (42 + dense + vad, 42 + vad + noise);
    [[42, dense, 0], [dense, vad, 0], [to_noise, noise, 0], [to_denoise, denoise, 0], [denoise, 22, 1], [vad, 1, 1]]
}

/// Lag 768 passes, 769 gives 6.
#[test]
fn lag_768_passes_and_769_gives_6() {
    for (lag, number) in [(768, 0), (769, 6)] {
        let (mut store, mut record) = (vec![0.0; tuppence::STORE], vec![0; record()]);
        let (mut window, mut sums) = ([0.0; 960], [0.0; 22]);
        assert_eq!(tuppence::open(&mut record, &mut store, 0, &zeros(headers([1; 4]))), 0);
        assert_eq!(tuppence::call1(&mut record, &mut store, 0, &[100.0; 480], &mut window), 0);
        assert_eq!(tuppence::call2(&mut record, &mut store, 0, &[0.5; 961], lag, &mut window, &mut sums), number);
    }
}

/// How many numbers a record has: the header for C says so.
fn record() -> usize {
    let header = include_str!("../../bindings/c/tuppence.h");
    let line = header.lines().find_map(|line| line.strip_prefix("#define TUPPENCE_RECORD "));
    line.and_then(|number| number.parse().ok()).expect("the constant TUPPENCE_RECORD")
}

/// Empty xcorr gives pitches (0, 1).
#[test]
fn empty_xcorr_gives_pitches_0_and_1() {
    for ys in [&[][..], &[1.0; 480]] {
        let mut pitches = [7, 7];
        assert_eq!(tuppence::find_best_pitch(&mut pitches, &[], ys, ys.len()), 0);
        assert_eq!(pitches, [0, 1]);
        assert_eq!(pitch::find_best_pitch(&[], ys, ys.len()), (0, 1));
    }
}

/// Shape 24, 24, 48, 96 is 87,521 bytes.
#[test]
fn shape_24_24_48_96_is_87_521_bytes() {
    let file = zeros(headers([24, 24, 48, 96]));
    assert_eq!(file.len(), 87_521);
    assert_eq!(tuppence::model(&mut [0; 30], &file), 0);
    assert!(RnnModel::from_bytes(&file).is_some());
    // a byte less and a byte more do not read
    assert_eq!(tuppence::model(&mut [0; 30], &file[..87_520]), 16 + 65_536 * 5);
    assert_eq!(tuppence::model(&mut [0; 30], &[&file[..], &[0]].concat()), 17 + 65_536 * 6);
}

/// The 392-byte listing's headers with all weights and biases 0 and finite features: voice 0.5, gains 0.5.
#[test]
fn weights_of_0_give_voice_and_gains_of_a_half() {
    let file = zeros(headers([1; 4]));
    assert_eq!(file.len(), 392);
    let features: Vec<f32> = (0..42).map(|i| 3.5 * i as f32 - 70.0).collect();
    let (mut gains, mut voice) = (vec![9.0; 22], vec![9.0]);
    let mut states = [[0.0; 128]; 3];
    let [vad, noise, denoise] = &mut states;
    assert_eq!(tuppence::network(&mut gains, &mut voice, vad, noise, denoise, &file, &features), 0);
    assert_eq!((&gains[..], &voice[..]), (&[0.5; 22][..], &[0.5][..]));
    let text = RnnModel::from_bytes(&file).unwrap();
    let (mut gains, mut voice) = (vec![9.0; 22], vec![9.0]);
    rnn::state(&text).compute(&mut gains, &mut voice, &features);
    assert_eq!((&gains[..], &voice[..]), (&[0.5; 22][..], &[0.5][..]));
}
