//! Each row of docs/DIFFERENCES.md, by the smallest input that shows it: what the library answers, and what the
//! compiled text does.

use nnnoiseless_text::probe::{bands, features, pitch, rnn, util};
use nnnoiseless_text::{feed, DenoiseFeatures, RnnModel};
use std::panic::{catch_unwind, AssertUnwindSafe};

/// Whether the text panics.
fn panics<R>(f: impl FnOnce() -> R) -> bool {
    catch_unwind(AssertUnwindSafe(f)).is_err()
}

fn bits(list: &[f32]) -> Vec<u32> {
    list.iter().map(|x| x.to_bits()).collect()
}

/// A leaf that is refused with 5 and leaves what its buffer held.
fn refused(n: usize, leaf: impl FnOnce(&mut [f32]) -> u32) {
    let mut out = vec![7.5; n];
    assert_eq!(leaf(&mut out), 5);
    assert_eq!(out, vec![7.5; n]);
}

/// What the text leaves in a buffer of n numbers.
fn left(n: usize, text: impl FnOnce(&mut [f32])) -> Vec<f32> {
    let mut out = vec![7.5; n];
    text(&mut out);
    out
}

#[test]
fn a_layer_without_neurons_is_read_by_the_text_and_panics_later() {
    let mut file = vec![42, 0, 0, 0, 0, 0, 42, 0, 0, 42, 0, 0, 0, 22, 1];
    file.extend([0; 22]);
    file.extend([0, 1, 1, 0]);
    assert_eq!(file.len(), 41);
    assert_eq!(tuppence::model(&mut [0; 30], &file), 15);
    let model = RnnModel::from_bytes(&file).expect("the text reads it");
    assert!(panics(|| rnn::state(&model).compute(&mut [0.0; 22], &mut [0.0], &[0.0; 42])));
}

#[test]
fn a_wrong_length_panics_or_the_shorter_part_is_worked_on() {
    refused(22, |out| tuppence::dct(out, &[1.0; 21]));
    assert!(panics(|| bands::dct(&mut [0.0; 22], &[1.0; 21])));
    refused(2, |out| tuppence::filter(out, &mut [0.0; 2], &[0.0; 4], &[1.0]));
    let filter = util::Biquad { a: [0.0; 2], b: [0.0; 2] };
    assert_eq!(left(2, |out| filter.filter(out, &mut [0.0; 2], &[1.0])), [1.0, 7.5]);
}

#[test]
fn a_dct_into_more_than_22_places_writes_the_first_22() {
    refused(23, |out| tuppence::dct(out, &[1.0; 22]));
    let out = left(23, |out| bands::dct(out, &[1.0; 22]));
    assert!(out[0] != 7.5 && out[22] == 7.5);
}

#[test]
fn windowing_of_another_length_works_on_the_shortest() {
    refused(0, |out| tuppence::window(out, &[]));
    refused(0, tuppence::window_in_place);
    assert!(left(0, |out| bands::apply_window(out, &[])).is_empty());
    assert!(left(0, bands::apply_window_in_place).is_empty());
}

#[test]
fn a_sixth_coefficient_is_passed_over() {
    refused(0, |xs| tuppence::fir5(xs, &[1.0; 6]));
    assert!(left(0, |xs| pitch::fir5_in_place(xs, &[1.0; 6])).is_empty());
    let [six, five] = [6, 5].map(|n| left(9, |xs| pitch::fir5_in_place(xs, &vec![0.5; n])));
    assert_eq!(six, five);
}

#[test]
fn an_autocorrelation_of_other_lengths() {
    refused(5, |ac| tuppence::autocorr(ac, &[2.0; 4]));
    assert_eq!(left(5, |ac| pitch::celt_autocorr(&[2.0; 4], ac)), [16.0, 12.0, 8.0, 4.0, 0.0]);
    assert!(panics(|| pitch::celt_autocorr(&[2.0; 3], &mut [0.0; 5])));
    // other lags than five: one, of no number
    refused(1, |ac| tuppence::autocorr(ac, &[]));
    assert_eq!(bits(&left(1, |ac| pitch::celt_autocorr(&[], ac))), [0]);
    assert!(panics(|| pitch::celt_autocorr(&[], &mut [])));
}

#[test]
fn an_lpc_with_a_short_ac() {
    refused(1, |lpc| tuppence::lpc(lpc, &[0.0]));
    assert_eq!(left(1, |lpc| pitch::lpc(lpc, &[0.0])), [0.0]);
    // behind the exit at 30 dB the rest of ac is not asked for
    refused(2, |lpc| tuppence::lpc(lpc, &[1.0, 1.0]));
    assert_eq!(left(2, |lpc| pitch::lpc(lpc, &[1.0, 1.0])), [-1.0, 0.0]);
    assert!(panics(|| pitch::lpc(&mut [0.0; 2], &[1.0, 0.5])));
}

#[test]
fn products_are_dropped_without_a_word() {
    refused(1, |xcorr| tuppence::pitch_xcorr(xcorr, &[1.0], &[]));
    assert_eq!(left(1, |xcorr| pitch::pitch_xcorr(&[1.0], &[], xcorr)), [0.0]);
    // for the blocks of four a number more is asked for than there are products
    refused(4, |xcorr| tuppence::pitch_xcorr(xcorr, &[1.0; 4], &[1.0; 7]));
    assert_eq!(left(4, |xcorr| pitch::pitch_xcorr(&[1.0; 4], &[1.0; 7], xcorr)), [0.0; 4]);
    assert_eq!(left(4, |xcorr| pitch::pitch_xcorr(&[1.0; 4], &[1.0; 8], xcorr)), [4.0; 4]);
}

#[test]
fn a_downsampling_of_other_lengths() {
    refused(4, |x_lp| tuppence::downsample(x_lp, &[1.0; 2]));
    assert!(!panics(|| pitch::pitch_downsample(&[1.0; 2], &mut [0.0; 4])));
    assert!(panics(|| pitch::pitch_downsample(&[1.0; 2], &mut [0.0; 3])));
    assert!(panics(|| pitch::pitch_downsample(&[1.0; 1], &mut [0.0; 4])));
}

#[test]
fn a_finder_on_other_lengths() {
    refused(2, |numbers| {
        let mut lag = [7];
        let number = tuppence::find(numbers, &mut lag, &[1.0; 2]);
        assert_eq!(lag, [7]);
        number
    });
    let text = |n: usize| panics(|| pitch::PitchFinder::new().process(&vec![1.0; n]));
    assert_eq!([1, 2, 1729, 1730].map(text), [true, false, false, true]);
}

#[test]
fn a_last_period_that_is_no_whole_number_of_0_to_768() {
    // pulses, 100 apart
    let sound: Vec<f32> = (0..1728).map(|i| if i % 100 == 0 { 1000.0 } else { 0.0 }).collect();
    let find = |last: f32| {
        let (mut numbers, mut lag) = ([last, 1.0], [7]);
        assert_eq!(tuppence::find(&mut numbers, &mut lag, &sound), 0);
        (lag[0] as usize, numbers[1])
    };
    for (last, read) in [(f32::NAN, 0), (-1.0, 0), (99.9, 99), (1e9, 768), (f32::INFINITY, 768)] {
        assert_eq!(find(last), pitch::PitchFinder::after(read, 1.0).process(&sound));
    }
    assert!(!panics(|| pitch::PitchFinder::after(usize::MAX, f32::NAN).process(&sound)));
}

#[test]
fn a_layer_of_more_than_127() {
    refused(128, |out| tuppence::dense(out, &[1; 128], &[2; 128], 2, &[3.0]));
    let layer = rnn::dense_layer(&[1; 128], &[2; 128], rnn::Activation::Relu);
    assert_eq!(left(128, |out| rnn::dense(&layer, out, &[3.0])), [5.0 / 256.0; 128]);
    refused(1, |out| tuppence::dense(out, &[1; 128], &[2], 2, &[3.0; 128]));
    let layer = rnn::dense_layer(&[1; 128], &[2], rnn::Activation::Relu);
    assert_eq!(left(1, |out| rnn::dense(&layer, out, &[3.0; 128])), [386.0 / 256.0]);
    // a GRU has room for 128 neurons in the text, and for no more
    let gru = |n: usize| {
        let layer = rnn::gru_layer(&vec![0; 3 * n], &vec![0; 3 * n * n], &vec![0; 3 * n], rnn::Activation::Tanh);
        left(n, |state| rnn::gru(&layer, state, &[1.0]))
    };
    refused(128, |state| tuppence::gru(state, &[0; 384], &[0; 49_152], &[0; 384], 0, &[1.0]));
    assert_eq!(gru(128), [3.75; 128]);
    assert!(panics(|| gru(129)));
}

#[test]
fn a_multiply_add_with_stride_0() {
    assert!(panics(|| rnn::mul_add(&[], 0, 0, &mut [], &[])));
    assert!(!panics(|| rnn::mul_add(&[], 1, 0, &mut [], &[])));
}

#[test]
fn a_clamp_with_low_above_high() {
    assert_eq!([tuppence::clamp(-1.0, 1.0, 0.0), tuppence::clamp(2.0, 1.0, 0.0)], [1.0, 0.0]);
    assert!(panics(|| std::hint::black_box(2.0f32).clamp(1.0, 0.0)));
    assert_eq!(tuppence::clamp(2.0, f32::NAN, 1.0), 1.0);
    assert!(panics(|| std::hint::black_box(2.0f32).clamp(f32::NAN, 1.0)));
}

/// Features by the text, whose next cepstrum goes to a row, and whose lag is fed.
fn features_at(row: usize, lag: usize) {
    let mut text = DenoiseFeatures::new();
    *features::memory(&mut text).mem_id = row;
    feed::start();
    feed::spectrum(&[1e6; 961]);
    feed::lag(lag);
    feed::spectrum(&[1e6; 961]);
    feed::logs(&[0.0; 22]);
    assert!(!text.compute_frame_features(), "heard");
}

/// The smallest model that reads: 392 bytes.
fn smallest() -> Vec<u8> {
    let layers = [(42, 1, 0, 43), (1, 1, 0, 9), (44, 1, 0, 138), (44, 1, 0, 138), (1, 22, 1, 44), (1, 1, 1, 2)];
    layers.iter().flat_map(|l| [vec![l.0, l.1, l.2], vec![0; l.3]].concat()).collect()
}

#[test]
fn an_index_above_7() {
    let (mut store, mut out, mut answer) = (vec![0.0; tuppence::STORE], [0.0; 961], [0.0; 3]);
    let mut third = |index| {
        let mut record = [3, index, 1, 1, 1, 0, 0, 0, 0, 0, 0, 1];
        tuppence::call3(&mut record, &mut store, 0, &[0.0; 961], &[0.0; 22], &smallest(), &mut out, &mut answer)
    };
    assert_eq!((third(8), third(7)), (2, 0));
    assert!(panics(|| features_at(8, 60)) && !panics(|| features_at(7, 60)));
}

#[test]
fn a_sample_that_is_none() {
    let first = |sample| {
        let (mut store, mut record, mut samples) =
            (vec![0.0; tuppence::STORE], [1, 0, 1, 1, 1, 0, 0, 0, 0, 0, 0, 1], [0.0; 480]);
        samples[479] = sample;
        tuppence::call1(&mut record, &mut store, 0, &samples, &mut [0.0; 960])
    };
    assert_eq!((first(32_768.0), first(32_767.0), first(-32_768.0)), (9, 0, 0));
    assert_eq!([f32::NAN, f32::INFINITY, f32::NEG_INFINITY, -32_769.0].map(first), [9; 4]);
    assert!(!panics(|| DenoiseFeatures::new().shift_and_filter_input(&[32_768.0; 480])));
}

#[test]
fn a_lag_above_768() {
    let second = |lag| {
        let (mut store, mut record) = (vec![0.0; tuppence::STORE], [2, 0, 1, 1, 1, 0, 0, 0, 0, 0, 0, 1]);
        tuppence::call2(&mut record, &mut store, 0, &[0.0; 961], lag, &mut [0.0; 960], &mut [0.0; 22])
    };
    assert_eq!((second(769), second(768)), (6, 0));
    assert!(panics(|| features_at(0, 769)) && !panics(|| features_at(0, 768)));
}

#[test]
fn our_own_lag_of_silence_is_not_the_finders() {
    let (mut ours, silence) = ([7], [0.0; 1728]);
    assert_eq!((tuppence::lag(&mut ours, &silence), ours), (0, [768]));
    assert_eq!(pitch::PitchFinder::new().process(&silence).0, 766);
}

#[test]
fn the_first_lags_are_summed_from_plus_0_and_the_last_from_minus_0() {
    for (lags, zero) in [(1, -0.0), (4, 0.0)] {
        let mut ours = vec![7.5; lags];
        assert_eq!(tuppence::pitch_xcorr(&mut ours, &[], &[0.0; 4]), 0);
        let rusts = left(lags, |xcorr| pitch::pitch_xcorr(&[], &[0.0; 4], xcorr));
        assert_eq!([bits(&ours), bits(&rusts)], [bits(&vec![zero; lags]), bits(&vec![zero; lags])]);
    }
}
