//! A record is of use to its own bench alone: every other bench refuses it with 2, whatever is asked, and nothing
//! changes.

use oracle::desk::{BENCH, BENCHES, DUE, RECORD, STORE};

/// The smallest shape, all weights and biases 0.
fn model() -> Vec<u8> {
    let layers = [(42, 1, 0, 43), (1, 1, 0, 9), (44, 1, 0, 138), (44, 1, 0, 138), (1, 22, 1, 44), (1, 1, 1, 2)];
    layers.iter().flat_map(|l| [vec![l.0, l.1, l.2], vec![0; l.3]].concat()).collect()
}

/// All that a call is lent to write to, apart from the record and the store.
#[derive(Clone, PartialEq, Debug)]
struct Lent {
    floats: [Vec<f32>; 3],
    bytes: Vec<u8>,
    records: Vec<u8>,
}

impl Lent {
    fn new() -> Lent {
        Lent { floats: [480, 960, 961].map(|n| vec![7.5; n]), bytes: vec![7; 960], records: vec![7; 8] }
    }
}

type Call = (&'static str, u32, fn(&mut [u32], &mut [f32], u32, &[u8], &mut Lent) -> u32);

/// Every call that takes a record, with the number that must be due for it and arguments that fit.
const CALLS: [Call; 13] = [
    ("open", 1, |r, s, side, model, _| tuppence::open(r, s, side, model)),
    ("open_crate", 1, |r, s, side, model, _| tuppence::open_crate(r, s, side, model)),
    ("call1", 1, |r, s, side, _, l| tuppence::call1(r, s, side, &[1.0; 480], &mut l.floats[1])),
    ("call2", 2, |r, s, side, _, l| {
        let [sums, window, _] = &mut l.floats;
        tuppence::call2(r, s, side, &[1.0; 961], 100, window, &mut sums[..22])
    }),
    ("call2_own", 2, |r, s, side, _, l| {
        let [sums, window, _] = &mut l.floats;
        tuppence::call2_own(r, s, side, &[1.0; 961], window, &mut sums[..22])
    }),
    ("call3", 3, |r, s, side, model, l| {
        let [answer, _, out] = &mut l.floats;
        tuppence::call3(r, s, side, &[1.0; 961], &[1.0; 22], model, out, &mut answer[..3])
    }),
    ("call4", 4, |r, s, side, _, l| tuppence::call4(r, s, side, &[1.0; 960], &mut l.floats[0])),
    ("first_half", 1, |r, s, side, _, l| tuppence::first_half(r, s, side, &[1.0; 480], &mut l.floats[0][..22])),
    ("second_half", 3, |r, s, side, model, l| {
        let [out, answer, _] = &mut l.floats;
        tuppence::second_half(r, s, side, &[1.0; 22], model, out, &mut answer[..3])
    }),
    ("piece", 1, |r, s, side, _, l| {
        let [out, sums, _] = &mut l.floats;
        tuppence::piece(r, s, side, &[1.0; 480], out, &mut sums[..22])
    }),
    ("frame", 1, |r, s, side, model, l| {
        let [out, answer, _] = &mut l.floats;
        tuppence::frame(r, s, side, &[1.0; 480], model, out, &mut answer[..3])
    }),
    ("take", 1, |r, s, side, model, l| {
        let [out, answers, _] = &mut l.floats;
        tuppence::take(r, s, side, &[1.0; 480], model, out, answers)
    }),
    ("feed", 1, |r, s, side, model, l| {
        let block = [1; 2 * 480];
        tuppence::feed(r, s, side, &block, 16, 1, 0, model, &mut l.bytes, &mut l.records, &mut l.floats[0])
    }),
];

/// A resume, for which a piece must be unfinished.
fn resume(record: &mut [u32], store: &mut [f32], side: u32, model: &[u8], lent: &mut Lent) -> u32 {
    let [out, sums, answer] = &mut lent.floats;
    tuppence::resume(record, store, side, &[1.0; 480], &[1.0; 22], model, out, &mut sums[..22], &mut answer[..3])
}

/// A store at which every bench is open, and all their records.
fn open(model: &[u8]) -> (Vec<f32>, Vec<[u32; RECORD]>) {
    let (mut store, mut records) = (vec![0.0; STORE], vec![[0; RECORD]; BENCHES]);
    for (side, record) in (0..).zip(&mut records) {
        assert_eq!(tuppence::open(record, &mut store, side, model), 0);
        assert_eq!(record[BENCH], side + 1);
    }
    (store, records)
}

/// Whether the call is refused with 2 and leaves everything as it was.
fn turned_away(call: Call, record: [u32; RECORD], store: &[f32], side: u32, model: &[u8]) {
    let (mut given, mut left, mut lent) = (record, store.to_vec(), Lent::new());
    let number = (call.2)(&mut given, &mut left, side, model, &mut lent);
    assert_eq!((number, given, lent), (2, record, Lent::new()), "{} of side {side}", call.0);
    assert!(left == store, "{} of side {side} changed the store", call.0);
}

#[test]
fn the_lefts_record_is_refused_on_the_right_side() {
    let model = model();
    let (mut store, mut records) = open(&model);
    let (mut out, mut answer) = ([7.5; 480], [7.5; 3]);
    let (before, left) = (store.clone(), records[0]);
    let number = tuppence::frame(&mut records[0], &mut store, 1, &[100.0; 480], &model, &mut out, &mut answer);
    assert_eq!((number, records[0], out, answer), (2, left, [7.5; 480], [7.5; 3]));
    assert!(store == before);
    assert_eq!(tuppence::frame(&mut records[0], &mut store, 0, &[100.0; 480], &model, &mut out, &mut answer), 0);
}

#[test]
fn every_call_is_refused_with_a_record_of_another_bench() {
    let model = model();
    let (store, records) = open(&model);
    for (bench, record) in (0..).zip(&records) {
        for call in CALLS {
            let mut record = *record;
            record[DUE] = call.1;
            for side in (0..BENCHES as u32).filter(|side| *side != bench) {
                turned_away(call, record, &store, side, &model);
            }
            // on its own bench it is done
            assert_eq!((call.2)(&mut record, &mut store.clone(), bench, &model, &mut Lent::new()), 0, "{}", call.0);
            assert_eq!(record[BENCH], bench + 1, "{}", call.0);
        }
    }
}

#[test]
fn a_piece_of_one_bench_is_not_resumed_on_another() {
    let model = model();
    let (mut store, mut records) = open(&model);
    let (mut out, mut sums) = ([0.0; 480], [0.0; 22]);
    assert_eq!(tuppence::piece(&mut records[3], &mut store, 3, &[1.0; 480], &mut out, &mut sums), 0);
    for side in [0, 1, 2, 4, 15] {
        turned_away(("resume", 3, resume), records[3], &store, side, &model);
    }
    assert_eq!(resume(&mut records[3], &mut store, 3, &model, &mut Lent::new()), 0);
}

#[test]
fn no_other_number_passes_for_the_bench() {
    let model = model();
    let (store, records) = open(&model);
    for number in [0, 1, 2, 4, 15, 16, 17, 255, 65_536, u32::MAX] {
        let mut record = records[2];
        record[BENCH] = number;
        for call in CALLS {
            record[DUE] = call.1;
            turned_away(call, record, &store, 2, &model);
        }
    }
    // a closed record belongs to no bench
    for number in [1, 3, 17, u32::MAX] {
        let mut record = [0; RECORD];
        record[BENCH] = number;
        CALLS.iter().for_each(|call| turned_away(*call, record, &store, 2, &model));
    }
}
