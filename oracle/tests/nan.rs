//! A broken spectrum is no speech.

/// The smallest shape, all weights and biases 0.
fn model() -> Vec<u8> {
    let layers = [(42, 1, 0, 43), (1, 1, 0, 9), (44, 1, 0, 138), (44, 1, 0, 138), (1, 22, 1, 44), (1, 1, 1, 2)];
    layers.iter().flat_map(|l| [vec![l.0, l.1, l.2], vec![0; l.3]].concat()).collect()
}

#[test]
fn a_second_spectrum_of_nan_is_no_voice() {
    let (model, mut store, mut record) = (model(), vec![0.0; tuppence::STORE], [0; tuppence::RECORD]);
    let (mut window, mut sums, mut out, mut answer) = ([0.0; 960], [0.0; 22], [0.0; 961], [0.0; 3]);
    assert_eq!(tuppence::open(&mut record, &mut store, 0, &model), 0);
    assert_eq!(tuppence::call1(&mut record, &mut store, 0, &[100.0; 480], &mut window), 0);
    assert_eq!(tuppence::call2(&mut record, &mut store, 0, &[1000.0; 961], 100, &mut window, &mut sums), 0);
    let logs = sums.map(f32::log10);
    assert_eq!(tuppence::call3(&mut record, &mut store, 0, &[f32::NAN; 961], &logs, &model, &mut out, &mut answer), 0);
    // heard; the features are NaN, the first layer makes 0 of them, and sigmoid(0) is the voice
    assert_eq!(answer[..2], [1.0, 0.5]);
}

#[test]
fn activations_of_nan() {
    assert_eq!([tuppence::tansig(f32::NAN), tuppence::sigmoid(f32::NAN), tuppence::relu(f32::NAN)], [0.0, 0.5, 0.0]);
}
