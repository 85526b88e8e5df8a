//! Fixed cases, through the static library and the box.

use tuppencehop::cleaning::demo::HOUSE;
use tuppencehop::cleaning::recorder::{Recorder, Side, Way, RECORD};
use tuppencehop::reading::block::Block;
use tuppencehop::telling::refusal::Refusal;
use tuppencehop::FRAME;

/// Hidden counts of 1, all weights and biases 0: 392 bytes.
fn smallest() -> Vec<u8> {
    let layers = [(42, 1, 0, 43), (1, 1, 0, 9), (44, 1, 0, 138), (44, 1, 0, 138), (1, 22, 1, 44), (1, 1, 1, 2)];
    layers.iter().flat_map(|l| [vec![l.0, l.1, l.2], vec![0; l.3]].concat()).collect()
}

#[test]
fn weights_of_0_give_halves() {
    let features: Vec<f32> = (0..42).map(|i| 3.5 * i as f32 - 70.0).collect();
    let (mut gains, mut voice, mut states) = ([9.0; 22], [9.0; 1], [[0.25; 128]; 3]);
    let [vad, noise, denoise] = &mut states;
    assert_eq!(smallest().len(), 392);
    assert_eq!(tuppence::network(&mut gains, &mut voice, vad, noise, denoise, &smallest(), &features), 0);
    assert_eq!((gains, voice), ([0.5; 22], [0.5]));
    // The one place of each state that the model has moved half way to 0; the others stay.
    for state in states {
        assert_eq!(state[0], 0.125);
        assert!(state[1..].iter().all(|x| *x == 0.25));
    }
}

#[test]
fn a_lag_of_768_passes_and_769_gives_6() {
    let (mut store, mut record) = (vec![1.0; tuppence::STORE], [0; RECORD]);
    let (mut window, mut sums) = ([2.0; 960], [3.0; 22]);
    assert_eq!(tuppence::open(&mut record, &mut store, 1, &smallest()), 0);
    assert_eq!(tuppence::call1(&mut record, &mut store, 1, &[100.0; 480], &mut window), 0);
    let before = (store.clone(), record, window, sums);
    assert_eq!(tuppence::call2(&mut record, &mut store, 1, &[0.5; 961], 769, &mut window, &mut sums), 6);
    assert!(before == (store.clone(), record, window, sums));
    assert_eq!(tuppence::call2(&mut record, &mut store, 1, &[0.5; 961], 768, &mut window, &mut sums), 0);
    assert_eq!(record, [3, 0, 1, 1, 1, 0, 0, 0, 0, 0, 0, 2]);
    // The other fifteen shares were never opened, and are as they were.
    assert!(store[..tuppence::SHARE].iter().chain(&store[2 * tuppence::SHARE..]).all(|x| *x == 1.0));
}

#[test]
fn the_sister_of_call_2_is_call_2_with_the_lag_of_that_sides_own_input() {
    const PERIODS: [usize; 2] = [300, 500];
    let (mut store, mut records) = (vec![1.0; tuppence::STORE], [[0; RECORD]; 2]);
    for (side, period) in PERIODS.into_iter().enumerate() {
        assert_eq!(tuppence::open(&mut records[side], &mut store, side as u32, &smallest()), 0);
        records[side][0] = 2;
        for (i, x) in store[tuppence::SHARE * side..][..1_728].iter_mut().enumerate() {
            *x = (i % period) as f32 - 0.5 * period as f32;
        }
    }
    for side in [0, 1] {
        let mut lag = [0];
        assert_eq!(tuppence::lag(&mut lag, &store[tuppence::SHARE * side..][..1_728]), 0);
        assert_eq!(lag[0] as usize, PERIODS[side]);
        let call = |own: bool| {
            let (mut store, mut record, mut window, mut sums) = (store.clone(), records[side], [2.0; 960], [3.0; 22]);
            let (r, s, x, w, u) = (&mut record, &mut store, &[0.5; 961], &mut window, &mut sums);
            let number = if own {
                tuppence::call2_own(r, s, side as u32, x, w, u)
            } else {
                tuppence::call2(r, s, side as u32, x, lag[0], w, u)
            };
            (number, store, record, window, sums)
        };
        assert!(call(true).0 == 0 && call(true) == call(false));
    }
}

#[test]
fn even_benches_are_left_and_odd_ones_right() {
    assert!((0..16).all(|bench| tuppence::side_of(bench) == u32::from(bench % 2 == 1)));
    assert_eq!([Side::Left, Side::Right].map(|side| tuppence::side_of(side as u32)), [0, 1]);
    assert_eq!([16, u32::MAX].map(tuppence::side_of), [0, 1]);
}

#[test]
fn bench_15_is_the_last_and_98_304_numbers_are_the_only_store() {
    let open = |side, len| tuppence::open(&mut [0; RECORD], &mut vec![1.0; len], side, &smallest());
    assert_eq!((open(15, tuppence::STORE), open(16, tuppence::STORE)), (0, 1));
    assert_eq!([12_288, 98_303, 98_305].map(|len| open(0, len)), [2; 3]);
}

/// The eleventh number of a record is the way of its bench, and the twelfth its bench, counted from 1.
#[test]
fn an_opening_settles_the_way() {
    for (way, number) in [(Way::Own, 0), (Way::Nnnoiseless, 1)] {
        let (mut store, mut record) = (vec![1.0; tuppence::STORE], [0; RECORD]);
        assert_eq!(way.open(&mut record, &mut store, 0, &smallest()), Ok(()));
        assert_eq!(record, [1, 0, 1, 1, 1, 0, 0, 0, 0, 0, number, 1]);
        let mut frame = |record: &mut [u32]| {
            let (mut out, mut answer) = ([0.0; FRAME], [0.0; 3]);
            tuppence::frame(record, &mut store, 0, &[100.0; FRAME], &smallest(), &mut out, &mut answer)
        };
        assert_eq!((frame(&mut record), record[10]), (0, number));
        // no other way, and no record of ten numbers
        record[10] = 2;
        assert_eq!([frame(&mut record), frame(&mut record[..10])], [2; 2]);
    }
}

/// Pulses 120 samples apart, of which every other one grows weak: whether the lag stays 120 or becomes 240 hangs on
/// what the finder remembers.
fn pulses() -> Vec<f32> {
    let strength = |i: usize| if i >= 9_600 && i / 120 % 2 == 1 { 3_200.0 } else { 8_000.0 };
    (0..100 * FRAME).map(|i| strength(i) * (1.0 - (i % 120) as f32 / 8.0).max(0.0)).collect()
}

/// Some of them are in a frame, and the rest wait.
const PARTLY: usize = FRAME + 7;

/// What comes out, with or without an opening after each piece that this model has refused.
fn disturbed(way: Way, by: Option<&[u8]>) -> Vec<u8> {
    let (mut recorder, mut output) = (Recorder::new(way), Vec::new());
    recorder.open(Side::Left, HOUSE).unwrap();
    for samples in pulses().chunks(PARTLY) {
        recorder.feed(Side::Left, &Block::of(samples), HOUSE, |_, out| output.extend(out)).unwrap();
        if let Some(model) = by {
            assert_eq!(recorder.open(Side::Left, model), Err(Refusal(7 + 256 * 11)));
        }
    }
    output
}

#[test]
fn a_refused_opening_changes_nothing() {
    for way in [Way::Nnnoiseless, Way::Own] {
        assert!(disturbed(way, Some(b"")) == disturbed(way, None), "{way:?}");
    }
}
